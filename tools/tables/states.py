"""The table of states: where each request leads in each state."""
import re

from model.codes import STATES
from model.messages import LAYOUTS
from model.slave import RequestRefused, next_state

from .source import Table, camel, source

FILE = "slave_states/src/tests.rt"
REQUESTS = [name for name in LAYOUTS if name.startswith("STC_")]
SIGNS = {"WRONG_STATE": ".", "IN_ERROR_STATE": "!"}


def tables():
    rows = re.findall(r'^ +(\w+), b"(.*?)", b"(.*?)", b"(.*?)";$', source(FILE), re.M)
    yield Table(f"crates/{FILE}: rows", [" ".join(row) for row in rows], [again(state) for state in STATES])


def again(state):
    """The row of a state: the state is named, before and after the initial outputs, and then the next one is."""
    other = STATES[(STATES.index(state) + 1) % len(STATES)]
    columns = ((state, False), (state, True), (other, True))
    return " ".join([camel(state)] + ["".join(letter(state, request, *it) for request in REQUESTS) for it in columns])


def letter(state, request, named, outputs_sent):
    """The state that is reached as the letter of its code, from A on, or the sign of the refusal."""
    try:
        return chr(ord("A") + STATES.index(next_state(state, request, named, outputs_sent)))
    except RequestRefused as refused:
        return SIGNS[refused.why]

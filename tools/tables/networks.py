"""The tables of the network in memory: what it gives, take by take."""
import re

from model.network import Network
from model.scenario import Chaos, NetLine

from .source import Table, source

FILE = "net_tests/src/networks.rt"
ENDS = [(0x7F000001, 9000), (0x7F000001, 9001)]
TAKES = 10


def tables():
    yield lines()
    yield chances()


def given(plan, chaos, sends):
    """Ten takes of the slave, before each of the first of which the master sends a message: its number, or 0
    where nothing is there."""
    network, got = Network(ENDS, plan, chaos), []
    for number in range(1, TAKES + 1):
        if number <= sends:
            network.send(*ENDS, bytes([7, number]))
        taken = network.take(ENDS[1])
        got.append(taken[1][1] if taken else 0)
    return got


def numbers_of(text):
    return [int(it) for it in re.findall("[0-9]+", text)]


def lines():
    """What a line of a plan does to three messages."""
    rows, made = [], []
    for what, fields, wanted in re.findall(r"NetLine::(\w+) \{([^}]*)\},\s*\[([0-9, ]*)\]", source(FILE)):
        end, type_id, nth, *lag = numbers_of(fields)
        line = NetLine(what.lower(), end, type_id, nth, lag[0] if lag else 1)
        rows.append(f"{what} {end} {type_id} {nth} {lag}: {numbers_of(wanted)}")
        made.append(f"{what} {end} {type_id} {nth} {lag}: {given([line], None, 3)}")
    return Table(f"crates/{FILE}: the lines of a plan", rows, made)


def chances():
    """What chance does to six messages."""
    rows, made = [], []
    for numbers, wanted in re.findall(r"\(((?:[0-9]+, ){4})\[([0-9, ]*)\]\)", source(FILE)):
        chaos = Chaos(*numbers_of(numbers))
        rows.append(f"{chaos}: {numbers_of(wanted)}")
        made.append(f"{chaos}: {given([], chaos, 6)}")
    return Table(f"crates/{FILE}: the treatment by chance", rows, made)

"""The commands of the program: what their words are, what they read and write, and how they end."""
import re
from typing import NamedTuple

from .conform import Breaks, conform
from .drawn import drawn_text
from .host import Differs, Host, Unended, replay
from .kinds import EXTERNAL
from .messages import BytesRefused, decode, encode
from .printed import parse_text, print_message
from .reference import reference
from .talk import read_talk, talk_lines
from .texts import model_line, print_description, read_description, read_scenario
from .traces import TraceRefused, read_trace, write_trace
from .words import Refused, TextRefused, is_name

DONE, USAGE, BAD_INPUT, RUN_FAILED, READ_FAULT, WRITE_FAULT, NET_FAULT, OUT_OF_MEMORY, DIFFERS = range(9)
TEXT_LIMIT, TRACE_LIMIT = 2**20, 2**30
_SOAK_NUMBER = re.compile(r"[0-9]{1,6}\Z")


class Outcome(NamedTuple):
    """What a command gives: its exit status, what it writes, and its trace."""
    status: int
    out: bytes
    trace: bytes = b""


class InputRefused(Exception):
    """An input is refused at a place, a `byte` or a `line`."""

    def __init__(self, unit, at, why):
        super().__init__(unit, at, why)
        self.line = f"input: {unit} {at} {why}\n".encode()


def rows_text(rows):
    """Rows with their numbers, one a line."""
    return "".join(f"{number} {' '.join(map(str, row))}\n" for number, row in enumerate(rows))


def text_of(data):
    """The input as a text, which has its limit."""
    if len(data) > TEXT_LIMIT:
        raise InputRefused("line", 0, "LIMIT")
    return data


def scenario_of(data):
    return read_scenario(text_of(data))


def runnable_of(data):
    """The scenario that a text is, where each of its slaves has a model that is here."""
    scenario = scenario_of(data)
    for number, slave in scenario.numbered():
        if slave.kind == EXTERNAL:
            raise TextRefused(model_line(data, number), "EXTERNAL")
    return scenario


def trace_of(data):
    """The hosted ends, the scenario and the log of an input that is a trace."""
    if len(data) > TRACE_LIMIT:
        raise InputRefused("byte", 0, "LIMIT")
    hosted, text, log = read_trace(data)
    try:
        scenario = read_scenario(text)
    except TextRefused:
        raise InputRefused("byte", 13, "HEADER") from None
    if hosted >> len(scenario.slaves) + 1:
        raise InputRefused("byte", 5, "HEADER")
    return hosted, scenario, log


def report_status(report):
    return RUN_FAILED if report.has_failed() else DONE


def do_decode(data):
    return Outcome(DONE, print_message(decode(data[:TEXT_LIMIT + 1])).encode())


def do_encode(data):
    try:
        return Outcome(DONE, encode(parse_text(text_of(data))))
    except Refused as refused:
        raise TextRefused(1, refused.why) from None


def do_describe(data):
    return Outcome(DONE, print_description(read_description(text_of(data))).encode())


def do_talk(data):
    description, _ = read_talk(text_of(data))
    if description.kind == EXTERNAL:
        raise TextRefused(model_line(data, 1), "EXTERNAL")
    return Outcome(DONE, "".join(talk_lines(text_of(data))).encode())


def do_reference(data):
    scenario = runnable_of(data)
    rows, fault = reference(scenario)
    last = fault.line() if fault else f"finished {scenario.steps}\n"
    return Outcome(DONE, (rows_text(rows) + last).encode())


def do_run(data):
    host = Host(runnable_of(data))
    host.run()
    return Outcome(*printed(host.master), write_trace(host.hosted, data, host.log))


def printed(master):
    """The status of a master's report, and its rows with the report."""
    return report_status(master.report), (rows_text(master.rows) + master.report.line()).encode()


def do_replay(data):
    hosted, scenario, log = trace_of(data)
    if any(hosted >> number & 1 and slave.kind == EXTERNAL for number, slave in scenario.numbered()):
        raise InputRefused("byte", 5, "HEADER")
    try:
        return Outcome(*printed(replay(scenario, hosted, log)))
    except Differs as differs:
        return Outcome(DIFFERS, f"differs at {differs.at}\n".encode())
    except Unended as unended:
        return Outcome(DIFFERS, f"unended {unended.entries}\n".encode())


def do_conform(name, data):
    _, scenario, log = trace_of(data)
    numbers = [number for number, slave in scenario.numbered() if slave.name == name]
    if not numbers:
        raise InputRefused("line", 0, "UNKNOWN_SLAVE")
    try:
        return Outcome(DONE, f"conforms {name} events {conform(scenario, numbers[0], log)}\n".encode())
    except Breaks as breaks:
        return Outcome(DIFFERS, f"bad entry {breaks.at} {breaks.why}\n".encode())


def do_soak(number):
    scenario = read_scenario(drawn_text(number))
    host = Host(scenario)
    host.run()
    report = host.master.report
    head = f"soak {number} slaves {len(scenario.slaves)} steps {scenario.steps} "
    total = sum(sum(row) for row in host.master.rows)
    return Outcome(report_status(report), f"{head}{report.line()}sum {total}\n".encode())


PLAIN = {"decode": do_decode, "encode": do_encode, "describe": do_describe, "talk": do_talk, "reference": do_reference,
         "run": do_run, "replay": do_replay}


def reads_input(words):
    """Whether words that name a command have it read the input."""
    return words[0] != "soak"


def command_of(words):
    """The command that the words name, as a function of the input, or None."""
    if len(words) == 1:
        return PLAIN.get(words[0])
    if len(words) == 2 and words[0] == "soak" and _SOAK_NUMBER.match(words[1]):
        return lambda data: do_soak(int(words[1]))
    if len(words) == 2 and words[0] == "conform" and is_name(words[1]):
        return lambda data: do_conform(words[1], data)
    return None


def call(words, data):
    """The outcome of these words on this input."""
    command = command_of(words)
    if command is None:
        return Outcome(USAGE, b"usage\n")
    try:
        return command(data)
    except InputRefused as refused:
        return Outcome(BAD_INPUT, refused.line)
    except (BytesRefused, TraceRefused) as refused:
        return Outcome(BAD_INPUT, InputRefused("byte", refused.at, refused.why).line)
    except TextRefused as refused:
        return Outcome(BAD_INPUT, InputRefused("line", refused.line, refused.why).line)

"""The scripts of conversations and of masters: events, and behind each what comes of it."""
from model.conversation import TASKS, Cause, Conversation, Goal
from model.master import Master
from model.messages import Message, decode_or_none, encode
from model.plan import Plan
from model.texts import read_scenario

from .source import Table, constant

FILES = "part_tests/src"
HERE = 0x7F000001
LIMITS = "turn_limit tries watch_turns state_limit retry_turns data_turns step_tries".split()
SMALL = dict(zip(LIMITS, (5, 2, 3, 4, 2, 3, 2)))
LONG = dict(zip(LIMITS, (50, 3, 20, 200, 20, 20, 3)))


def tables():
    for file, play in (("conversations", talk_lines), ("masters", master_lines)):
        text = constant(f"{FILES}/{file}.rt", "SCRIPTS")
        made = "\n\n".join(again(script, play) for script in text.split("\n\n"))
        yield Table(f"crates/{FILES}/{file}.rt: SCRIPTS", text.split("\n"), made.split("\n"))


def again(script, play):
    """A script, played by the model."""
    head, *lines = script.split("\n")
    return "\n".join([head] + ["|".join(cells) for cells in play(head.split("|")[0], [it.split("|")[0] for it in lines])])


def told(name, fields):
    """A cause as the program's derived Debug prints it."""
    names = {"type": "type_id"}
    return name + " { " + ", ".join(f"{names.get(key, key)}: {value}" for key, value in fields.items()) + " }"


def told_verdict(verdict):
    return f"Ended({told(verdict.word, verdict.fields)})" if isinstance(verdict, Cause) else verdict


def told_report(report):
    if report is None:
        return "None"
    if not report.has_failed():
        return "Some(" + told("Finished", {"steps": report.steps}) + ")"
    cause = told(report.cause.word, report.cause.fields)
    return "Some(" + told("Failed", {"slave": report.slave, "phase": report.phase, "cause": cause}) + ")"


def talk_lines(limits, events):
    """Each event with what it makes a conversation have due."""
    talk = Conversation(1, SMALL if limits == "small" else LONG)
    for event in events:
        word, _, rest = event.partition(":")
        talk.due = None
        if word == "?":
            yield [event, told_verdict(talk.verdict), str(talk.waits_for_answer()).lower()]
        elif word == "turns":
            yield [event] + list(turns_of(talk, int(rest)))
        else:
            came = begin(talk, rest) if word == "begin" else hear(talk, bytes.fromhex(event))
            yield [event] + came + ([talk.due.hex()] if talk.due else [])


def begin(talk, task):
    talk.begin(Goal(TASKS[task], 1, 4, 70_000, []))
    return []


def turns_of(talk, count):
    """What becomes due at so many turns, while another slave is going."""
    for _ in range(count):
        talk.due = None
        talk.on_turn(True)
        if talk.due:
            yield talk.due.hex()


def hear(talk, data):
    """A datagram of the slave; `+` where it brought the outputs, of four bytes."""
    message = decode_or_none(data)
    if message is None:
        return []
    if message.is_answer():
        talk.on_answer(message)
    elif message.name == "NTF_state_changed" and message["sender"] == 1:
        talk.on_hint()
    elif message.name == "DAT_input_output" and message["data_id"] == 1 and len(message["payload"]) == 4:
        return ["+"] if talk.on_outputs(message["pdu_seq_id"]) else []
    return []


def text_of(cell):
    """The text of the scenario that a cell writes on one line."""
    for sign, name in (("$", "COUNT"), ("&", "RING"), ("%", "FAN")):
        cell = cell.replace(sign, constant(f"{FILES}/scenarios.rt", name))
    return cell.replace(";", "\n").encode()


def master_lines(cell, events):
    """Each event with what it makes a master send, and how the master stands."""
    scenario = read_scenario(text_of(cell))
    master = Master(scenario, Plan(scenario))
    for event in events:
        word, _, rest = event.partition(":")
        master.outgoing = []
        if word == "?":
            yield [event] + standing(master)
        elif word == "row":
            yield [event, told_value(master, *(int(it) for it in rest.split(" ")))]
        elif word in ("setup", "adjust", "links"):
            yield [event] + planned(master.plan, word, int(rest or 0))
        else:
            happen(master, word, rest)
            yield [event] + [f"{to[1]}:{data.hex()}" for to, data in master.outgoing]


def standing(master):
    over = str(master.is_over()).lower()
    return [str(master.address[1]), told_report(master.report), over, str(master.turns), str(len(master.rows))]


def told_value(master, row, slave, port):
    """The value of a row, by the numbers of outputs of the slaves before."""
    counts = [len(it.outputs) for it in master.scenario.slaves]
    if row < len(master.rows) and 1 <= slave <= len(counts) and port < counts[slave - 1]:
        return f"Some({master.rows[row][sum(counts[:slave - 1]) + port]})"
    return "None"


def planned(plan, word, slave):
    """Data ids, or the settings of a slave, numbered as they are sent: a setup comes behind two requests."""
    if word == "links":
        return [f"{link.id} {link.source} {link.target} {link.interval}" for link in plan.links()]
    settings, first = (plan.setup(slave), 2) if word == "setup" else (plan.adjust(1, slave), 0)
    return [encode(Message(it.name, pdu_seq_id=number, receiver=slave, **it.fields)).hex()
            for number, it in enumerate(settings, first)]


def happen(master, word, rest):
    """So many turns, or a datagram from a port."""
    if word == "turns":
        for _ in range(int(rest)):
            master.on_turn()
    else:
        master.on_datagram((HERE, int(word)), bytes.fromhex(rest))

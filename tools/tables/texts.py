"""The tables of words, of texts and of models."""
from model.codes import FAULTS, UDP
from model.kinds import KINDS, BadParameters, Model, ModelFault, has_ports
from model.reference import reference
from model.texts import print_description, read_description, read_scenario
from model.words import (Refused, TextRefused, address_of, int64_of, is_name, ip_of, number_of, number_or_none, split_lines,
                         split_words, uuid_of)

from .source import camel, constant, table

FILES = "part_tests/src"
FAULT_NAMES = {code: camel(word) for word, code in FAULTS.items()}


def tables():
    for file, name in (("words", "WORDS"), ("texts", "TEXTS"), ("models", "MODELS")):
        yield table(f"{FILES}/{file}.rt", name, again)


def again(row):
    """A row: what is asked, a cell, and the answer."""
    asked, cell = row.split("|")[:2]
    return f"{asked}|{cell}|{answer(asked, cell)}"


def answer(asked, cell):
    if asked == "model ports":
        return ports_answer(cell)
    if asked.startswith("model "):
        return model_answer(asked.removeprefix("model "), cell)
    if asked in TEXT_ANSWERS:
        return text_answer(asked, unfolded(cell))
    return WORD_ANSWERS[asked](unfolded(cell))


def unfolded(cell):
    """The text that a cell writes on one line."""
    text = cell.replace(";", "\n").replace("^", "\r").encode().replace(b"~", b"\xff")
    for sign, name in ((b"@", "HEAD"), (b"$", "COUNT"), (b"&", "RING")):
        text = text.replace(sign, constant(f"{FILES}/tables.rt", name).encode())
    return text


def folded(text):
    return text.replace("\n", ";").replace("\r", "^")


def debug(value):
    """A value as the program's derived Debug prints it: lists, tuples and numbers."""
    if isinstance(value, (bytes, list)):
        return "[" + ", ".join(debug(it) for it in value) + "]"
    if isinstance(value, tuple):
        return "(" + ", ".join(debug(it) for it in value) + ")"
    return str(value)


def struct(name, **fields):
    return f"{name} {{ " + ", ".join(f"{key}: {value}" for key, value in fields.items()) + " }"


def some(value):
    return "None" if value is None else f"Some({value})"


def outcome(error, read, *given):
    """What is read as a result; `error` makes the reason of it."""
    try:
        return f"Ok({read(*given)})"
    except Refused as refused:
        return f"Err({error(camel(refused.why))})"


def reason(word):
    return word


def why(word):
    return f"Why({word})"


def lines_answer(text):
    return "".join(folded(line.decode()) + "/" for line in split_lines(text))


def words_answer(text):
    """The words, whether they are skipped, and what they are as one, two, three and four."""
    words = [word.encode() for word in split_words(text.decode())]
    skipped = not words or words[0].startswith(b"#")
    exact = debug(words[0] if len(words) == 1 else tuple(words))
    counts = [f"Ok({exact})" if len(words) == count else "Err(Words)" for count in (1, 2, 3, 4)]
    return " ".join([debug(words), str(skipped).lower()] + counts)


def number_answer(text):
    word = text.decode("utf-8", "replace")
    plain, signed = some(number_or_none(word)), some(number_or_none(word, signed=True))
    return " ".join([plain, outcome(reason, number_of, word, 1, 20), signed, plain, outcome(reason, int64_of, word)])


def name_answer(text):
    word = text.decode("utf-8", "replace")
    return f"true {word}" if is_name(word) else "false BAD_NAME"


def address_answer(text):
    words = split_words(text.decode("utf-8", "replace"))
    return outcome(why, told_address, *words) if len(words) == 2 else "Err(Why(Words))"


def told_address(ip, port):
    number, port = address_of(ip, port)
    return struct("Address", ip=number, port=port)


def utf8_answer(text):
    return str(text == text.decode("utf-8", "ignore").encode()).lower()


WORD_ANSWERS = {
    "lines": lines_answer,
    "words": words_answer,
    "number": number_answer,
    "name": name_answer,
    "ip": lambda text: outcome(why, ip_of, text.decode("utf-8", "replace")),
    "address": address_answer,
    "identity": lambda text: outcome(reason, uuid_of, text.decode("utf-8", "replace")),
    "utf8": utf8_answer,
}


def text_answer(asked, text):
    """What is asked of a text, or the line and the reason of its refusal."""
    try:
        return TEXT_ANSWERS[asked](text)
    except TextRefused as refused:
        return f"{refused.line} {refused.why}"


def description_answer(text):
    return folded(print_description(read_description(text)))


def counts_of(scenario):
    """How many there are of each part."""
    first = [it for it in scenario.settings if it.run == 1]
    lists = [scenario.slaves, scenario.wires, first, scenario.intervals, scenario.settings[len(first):], scenario.net]
    counts = [scenario.steps, scenario.micro, scenario.runs] + [len(it) for it in lists]
    return "".join(f"{count} " for count in counts)


def told_setting(setting):
    fields = {"run": setting.run} if setting.run > 1 else {}
    return struct("Rerun" if fields else "Setting", **fields, slave=setting.slave, index=setting.index, value=setting.value)


def told_net_line(line):
    lag = {} if line.what == "drop" else {"lag": line.lag}
    return struct(line.what.capitalize(), end=line.end, type_id=line.type_id, nth=line.nth, **lag)


def parts_of(scenario):
    """All parts of a scenario."""
    names = "".join(f"{slave.name} " for slave in scenario.slaves)
    settings = [told_setting(it) for it in scenario.settings if it.run == 1]
    reruns = [told_setting(it) for it in scenario.settings if it.run > 1]
    wires = [struct("Wire", **{"from": it.source, "out": it.out, "to": it.target, "into": it.into}) for it in scenario.wires]
    every = [struct("Every", **{"from": source, "to": target, "q": steps})
             for (source, target), steps in scenario.intervals.items()]
    chaos = None if scenario.chaos is None else struct("Chaos", **scenario.chaos._asdict())
    parts = ["Udp" if scenario.protocol == UDP else "Tcp", struct("Address", ip=scenario.master[0], port=scenario.master[1]),
             struct("Limits", **scenario.limits)]
    parts += [debug(it) for it in (wires, settings, every, reruns, [told_net_line(line) for line in scenario.net])]
    return counts_of(scenario) + names + " ".join(parts + [some(chaos)])


def rows_of(scenario):
    """The first rows of a correct run, the number of its rows, and the fault that ends them."""
    rows, fault = reference(scenario)
    first = "".join("".join(f"{value} " for value in row) + "/" for row in rows[:8])
    told = None
    if fault:
        told = struct("RefFault", slave=fault.slave, run=fault.run, step=fault.step, code=FAULT_NAMES[fault.code])
    return f"{first}{len(rows)} {some(told)}"


TEXT_ANSWERS = {
    "description": description_answer,
    "counts": lambda text: counts_of(read_scenario(text)),
    "parts": lambda text: parts_of(read_scenario(text)),
    "rows": lambda text: rows_of(read_scenario(text)),
}


def ports_answer(kind):
    """With how many inputs and outputs a kind goes."""
    return " ".join([kind] + [f"{i}:{o}" for i in range(10) for o in range(4) if has_ports(kind, i, o)])


def inputs_of(kind, cell):
    """The inputs of a kind: none, the first, or both and 2."""
    first, second = ([int(it) for it in cell.split(" ")] + [-1])[:2]
    most = KINDS[kind].most_inputs
    return [first, second, 2] if most > 1 else [first][:most]


def model_answer(letters, cell):
    """What comes of the acts on a model."""
    cells = cell.split("/") + ["", "", ""]
    kind, *parameters = cells[0].split(" ")
    try:
        model = Model(kind, [int(it) for it in parameters], cells[1].split(" "))
    except BadParameters:
        return "BadParameters"
    return "".join(act(model, letter, cells) + " " for letter in letters)


def act(model, letter, cells):
    """One act, and what the model then shows, or behind `!` the code of its fault."""
    try:
        if letter in "sS":
            model.step(inputs_of(model.kind, cells[3]), int(cells[2]))
        elif letter == "r":
            model.restart()
        elif letter == "c":
            model.set(*(int(it) for it in cells[4].split(" ")))
        return str(model.output(1 if letter in "SO" else 0))
    except ModelFault as fault:
        return f"!{FAULTS[fault.why]}"
    except BadParameters:
        return "!0"

"""Random traces: of runs, with entries changed, absent or too many, and with bytes damaged."""
from model.commands import call
from model.texts import read_scenario
from model.traces import read_trace, write_trace
from model.words import TextRefused

from .scenarios import scenario


def trace(rng):
    """The trace of a run, and mostly not as it was."""
    hosted, text, log = read_trace(trace_of_run(rng))
    if rng.random() < .1:
        text = with_external(rng, text)
        hosted = rng.choice([1, 1, hosted])
    if rng.random() < .6:
        change_log(rng, log)
        hosted = hosted & rng.getrandbits(6) if rng.random() < .2 else hosted
    data = bytearray(write_trace(hosted, text, log))
    if rng.random() < .2:
        damage(rng, data)
    return bytes(data)


def trace_of_run(rng):
    """The trace of a run of a scenario that can be run here."""
    while True:
        data = call(["run"], scenario(rng)).trace
        if data:
            return data


def with_external(rng, text):
    """The text of a scenario in which the model of one slave is elsewhere."""
    lines = text.split(b"\n")
    at = rng.choice([at for at, line in enumerate(lines) if line.startswith(b"model ")])
    lines[at] = b" ".join([b"model", b"external", *lines[at].split()[2:]])
    return b"\n".join(lines)


def change_log(rng, log):
    """Cuts the log, or takes out, puts in or changes an entry."""
    at, how = rng.randrange(len(log)), rng.randrange(5)
    if how == 0:
        del log[at:]
    elif how == 1:
        del log[at]
    elif how == 2:
        log.insert(at, rng.choice(log))
    elif hasattr(log[at], "data"):
        data = bytearray(log[at].data or b"\0")
        data[rng.randrange(len(data))] ^= rng.choice([1, 2, 128])
        log[at] = log[at]._replace(data=bytes(data))


def damage(rng, data):
    """Turns a bit, or cuts, most often somewhere and else in the header."""
    at = rng.randrange(len(data)) if rng.random() < .7 else rng.randrange(20)
    if rng.random() < .5:
        data[at] ^= 1 << rng.randrange(8)
    else:
        del data[at:]


def name_in(rng, data):
    """The name of a slave of a trace, or seldom another one."""
    names = ["s1", "s9", "x"]
    try:
        text = data[13:13 + int.from_bytes(data[9:13], "little")]
        names += 3 * [slave.name for slave in read_scenario(text).slaves]
    except TextRefused:
        pass
    return rng.choice(names)

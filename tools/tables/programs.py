"""The tables of the program: its words on an input, over objects in memory."""
import hashlib
import re

from model.commands import BAD_INPUT, READ_FAULT, USAGE, WRITE_FAULT, Outcome, call, command_of, reads_input

from .source import Table, constant, literal, source, table

ROWS = "program_tests/src/rows.rt"
RUNS = "program_tests/src/runs.rt"
TABLES = "NO_COMMANDS DECODED ENCODED DESCRIBED REFERENCES TALKS RUNS SOAKS FAULTS".split()
# The tests hand over so many bytes at each read.
READ_BYTES = 2


def tables():
    for name in TABLES:
        yield table(ROWS, name, again)
    yield two_runs()
    yield counter_trace()
    yield damages()


def bytes_of(cell):
    """The bytes of a cell: hexadecimal digits behind `#`, and else text with `/` for a line feed."""
    return bytes.fromhex(cell[1:]) if cell.startswith("#") else cell.replace("/", "\n").encode()


def cell_of(data, like):
    """The cell of these bytes, written like another one."""
    return "#" + data.hex() if like.startswith("#") else data.decode().replace("\n", "/")


def again(row):
    """A row: words, input, status, output, and then the reads and writes that fail and the room of the sink."""
    words, data, _, out, *rest = row.split("|")
    reads, writes, room = (rest + ["", "", ""])[:3]
    given = over_objects(words.split(), bytes_of(data), [int(it) for it in reads.split()])
    given = into_sink(given, [int(it) for it in writes.split()], room)
    return "|".join([words, data, str(given.status), cell_of(given.out, out)] + rest)


def over_objects(words, data, failing_reads):
    """What comes of the words where these reads of the input fail."""
    reads = -(-len(data) // READ_BYTES) + 1
    if command_of(words) and reads_input(words) and any(read <= reads for read in failing_reads):
        return Outcome(READ_FAULT, b"")
    return call(words, data)


def into_sink(given, failing_writes, room):
    """What comes of it where the first write fails, or where the sink has so much room. A refusal stays one."""
    written = given.out if room == "" else given.out[:int(room)]
    if failing_writes == [1]:
        written = b""
    elif failing_writes:
        raise ValueError("how many writes an output takes is no rule, so only the first one can be asked for")
    whole = written == given.out or given.status in (USAGE, BAD_INPUT)
    return Outcome(given.status if whole else WRITE_FAULT, written)


def two_runs():
    """The end of what is printed of two runs, in the second of which a model faults."""
    row = literal(re.search(r'ends_with\(b"(.*?)"', source(ROWS))[1])
    out = call(["reference"], bytes_of(constant(ROWS, "TWO_RUNS"))).out.decode()
    return Table(f"crates/{ROWS}: the end of TWO_RUNS", [row], [out[-len(row):]])


def counter_of():
    """The outcome of the counter's run."""
    return call(["run"], constant(RUNS, "COUNTER").encode())


def counter_trace():
    """The length and the checksum of the counter's trace."""
    length = re.search(r"trace\.len\(\), ([0-9_]+)\)", source(RUNS))[1].replace("_", "")
    digest = re.search(r'hex::decode\(rt\.alloc\(\), "([0-9a-f]{32})"\)', source(RUNS))[1]
    trace = counter_of().trace
    made = f"{len(trace)} {hashlib.md5(trace).hexdigest()}"
    return Table(f"crates/{RUNS}: the trace of COUNTER", [f"{length} {digest}"], [made])


def damages():
    """What is said of the counter's trace with a byte changed, and cut to a length."""
    trace = counter_of().trace

    def again(row):
        words, cut, _, _ = row.split("|")
        at, byte, length = map(int, cut.split())
        changed = bytearray(trace)
        changed[at] = byte
        given = call(words.split(), bytes(changed[:length]))
        return "|".join([words, cut, str(given.status), given.out.decode().replace("\n", "/")])

    return table(RUNS, "DAMAGED", again)

"""The tables of traces: bytes that are read or refused, and a trace with each of its bytes damaged."""
from model.traces import TraceRefused, read_trace

from .source import Table, constant, table

FILE = "net_tests/src/traces.rt"


def tables():
    yield table(FILE, "BYTES", lambda row: row.split("|")[0] + "|" + answer(bytes.fromhex(row.split("|")[0])))
    trace = bytes.fromhex(constant(FILE, "TRACE"))
    yield Table(f"crates/{FILE}: DAMAGED", constant(FILE, "DAMAGED").split("\n"), list(damaged(trace)))


def answer(data):
    """That the bytes are read, or where and why they are refused."""
    try:
        read_trace(data)
        return "reads"
    except TraceRefused as refused:
        return f"{refused.at}:{refused.why}"


def damaged(trace):
    """A line for each byte: what is said of the bytes before it, and of the trace with the byte one higher,
    one lower, and with its highest bit turned."""
    for at, byte in enumerate(trace):
        others = [(byte + 1) % 256, (byte - 1) % 256, byte ^ 128]
        yield " ".join([answer(trace[:at])] + [answer(trace[:at] + bytes([it]) + trace[at + 1:]) for it in others])

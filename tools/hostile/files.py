"""A small trace with each byte turned, and cut at each length."""
from model.commands import call

from .datagrams import BITS
from .jobs import Job

TEXT = b"""steps 0
master 127.0.0.1 9000
slave a
uuid 00000000-0000-0000-0000-000000000001
address 127.0.0.1 9001
model const 7
output 1 int8
"""
PIECES = 32


def units():
    return [("files", piece) for piece in range(PIECES)]


def damaged(trace):
    """The trace cut at each length, and with each byte turned; each behind words that tell it."""
    for at in range(len(trace)):
        yield f"trace cut to {at} bytes", trace[:at]
        for bit in BITS:
            yield f"trace with byte {at} turned by {bit:02x}", trace[:at] + bytes([trace[at] ^ bit]) + trace[at + 1:]


def jobs(piece, sample):
    """A share of all damaged traces."""
    trace = call(["run"], TEXT).trace
    for words, data in list(damaged(trace))[piece::PIECES][piece % sample::sample]:
        answered = call(["replay"], data)
        yield Job(words, ["replay"], data, answered.status, answered.out)

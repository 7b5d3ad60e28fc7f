"""The entries of a trace, and the names of the ends in it."""
import struct
from typing import Iterator, NamedTuple, Optional

from .formats import address_of

MAGIC = b"DCPR\x01"
HEADER_BYTES = 13
SENT, GOT, IDLE, TURN = 1, 2, 3, 4


class TraceRefused(Exception):
    """Bytes are no trace; the line says at which place and why, as the program says it."""

    def __init__(self, at: int, why: str):
        super().__init__(f"input: byte {at} {why}")


class Entry(NamedTuple):
    """An entry: its tag, the address of its end, and for a datagram the other end's and the bytes."""
    tag: int
    at: tuple
    other: Optional[tuple] = None
    data: bytes = b""


class Trace(NamedTuple):
    """A trace: the bits of the hosted ends, the text of the scenario, and the bytes of the entries."""
    hosted: int
    scenario: str
    raw: bytes

    def names(self) -> dict:
        """The names of the ends by their addresses: `master`, and those of the slaves."""
        return {end: name for name, end in self.ends()}

    def ends(self) -> list:
        """The ends in order, each as its name and its address, as the text of the scenario has them."""
        master, slaves, name = [], [], ""
        for words in (line.split() for line in self.scenario.split("\n")):
            if words[:1] == ["slave"]:
                name = words[1]
            elif words[:1] == ["master"]:
                master.append(("master", (words[1], int(words[2]))))
            elif words[:1] == ["address"]:
                slaves.append((name, (words[1], int(words[2]))))
        return master + slaves

    def hosted_addresses(self) -> set:
        """The addresses of the ends that the process of this trace hosted."""
        return {end for bit, (_, end) in enumerate(self.ends()) if self.hosted >> bit & 1}

    def entries(self) -> Iterator[Entry]:
        """The entries, from 0. TraceRefused at the first that is none, behind those before it."""
        at, start = 0, HEADER_BYTES + len(self.scenario.encode("utf-8", "surrogateescape"))
        while at < len(self.raw):
            entry, end = _entry(self.raw, at, start)
            yield entry
            at = end


def read_trace(data: bytes) -> Trace:
    """A trace of its bytes. TraceRefused where they have no whole header and scenario."""
    for at, byte in enumerate(data[:len(MAGIC)]):
        if byte != MAGIC[at]:
            raise TraceRefused(at, "HEADER")
    if len(data) < HEADER_BYTES:
        raise TraceRefused(len(data), "HEADER")
    hosted, length = struct.unpack_from("<II", data, len(MAGIC))
    if len(data) < HEADER_BYTES + length:
        raise TraceRefused(len(data), "HEADER")
    text = data[HEADER_BYTES:HEADER_BYTES + length].decode("utf-8", "surrogateescape")
    return Trace(hosted, text, data[HEADER_BYTES + length:])


def _entry(raw: bytes, at: int, start: int) -> tuple:
    """The entry at this place, and the place behind it. The entries begin at `start` in the file."""
    tag = raw[at]
    if tag not in (SENT, GOT, IDLE, TURN):
        raise TraceRefused(start + at, "TAG")
    head = 15 if tag in (SENT, GOT) else 7
    if at + head > len(raw):
        raise TraceRefused(start + len(raw), "SHORT")
    if tag in (IDLE, TURN):
        return Entry(tag, address_of(raw[at + 1:at + 7])), at + 7
    length = struct.unpack_from("<H", raw, at + 13)[0]
    if not (1 <= length <= 1024 if tag == SENT else length <= 1025):
        raise TraceRefused(start + at + 13, "LENGTH")
    if at + 15 + length > len(raw):
        raise TraceRefused(start + len(raw), "SHORT")
    data = raw[at + 15:at + 15 + length]
    return Entry(tag, address_of(raw[at + 1:at + 7]), address_of(raw[at + 7:at + 13]), data), at + 15 + length

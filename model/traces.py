"""Traces: a header, the text of a scenario, and the entries of a log, as bytes."""
import struct

from .host import Got, Idle, Sent, Turn

MAGIC = b"DCPR\x01"
HEADER_BYTES = 13
MOST_HOSTED_BITS = 17
TAGS = {Sent: 1, Got: 2, Idle: 3, Turn: 4}
SENT, GOT, IDLE, TURN = TAGS.values()
ADDRESS_BYTES = 6
# The bytes of a datagram's entry before its length, and before the datagram.
LENGTH_AT = 1 + 2 * ADDRESS_BYTES
DATA_AT = LENGTH_AT + 2


class TraceRefused(Exception):
    """Bytes are no trace: at which place, and why."""

    def __init__(self, at, why):
        super().__init__(at, why)
        self.at, self.why = at, why


def _spell_address(address):
    return struct.pack("<IH", *address)


def _spell_entry(entry):
    head = bytes([TAGS[type(entry)]]) + _spell_address(entry[0])
    if isinstance(entry, (Idle, Turn)):
        return head
    return head + _spell_address(entry[1]) + struct.pack("<H", len(entry.data)) + entry.data


def write_trace(hosted, text, log):
    """The bytes of a trace."""
    header = MAGIC + struct.pack("<II", hosted, len(text))
    return b"".join([header, text] + [_spell_entry(entry) for entry in log])


def read_trace(data):
    """The hosted bits, the text and the log of a trace; TraceRefused where the bytes are none."""
    for at, byte in enumerate(data[:len(MAGIC)]):
        if byte != MAGIC[at]:
            raise TraceRefused(at, "HEADER")
    if len(data) < 9:
        raise TraceRefused(len(data), "HEADER")
    hosted = int.from_bytes(data[5:9], "little")
    if hosted >> MOST_HOSTED_BITS:
        raise TraceRefused(5, "HEADER")
    at = HEADER_BYTES + int.from_bytes(data[9:HEADER_BYTES], "little")
    if len(data) < HEADER_BYTES or len(data) < at:
        raise TraceRefused(len(data), "HEADER")
    return hosted, data[HEADER_BYTES:at], list(_entries(data, at))


def _entries(data, at):
    """The entries that begin at this place."""
    while at < len(data):
        entry, at = _read_entry(data, at)
        yield entry


def _read_entry(data, at):
    """The entry at this place, and the place behind it."""
    tag = data[at]
    if tag in (IDLE, TURN):
        end = at + 1 + ADDRESS_BYTES
        _needs(data, end)
        return (Idle if tag == IDLE else Turn)(_read_address(data, at + 1)), end
    if tag not in (SENT, GOT):
        raise TraceRefused(at, "TAG")
    _needs(data, at + DATA_AT)
    length = int.from_bytes(data[at + LENGTH_AT:at + DATA_AT], "little")
    if not (1 <= length <= 1024 if tag == SENT else length <= 1025):
        raise TraceRefused(at + LENGTH_AT, "LENGTH")
    end = at + DATA_AT + length
    _needs(data, end)
    addresses = _read_address(data, at + 1), _read_address(data, at + 1 + ADDRESS_BYTES)
    return (Sent if tag == SENT else Got)(*addresses, data[at + DATA_AT:end]), end


def _needs(data, end):
    """An entry goes to this place at least."""
    if end > len(data):
        raise TraceRefused(len(data), "SHORT")


def _read_address(data, at):
    return struct.unpack_from("<IH", data, at)

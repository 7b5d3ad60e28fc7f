"""The messages that a slave hears and sends, as bytes, and the codes in them."""
import enum
import struct
from typing import NamedTuple, Optional

MOST_BYTES = 1024
Address = tuple  # (ip in dotted form, port)


class State(enum.IntEnum):
    """The states of a slave, by their codes."""
    ALIVE = 0
    CONFIGURATION = 1
    PREPARING = 2
    PREPARED = 3
    CONFIGURING = 4
    CONFIGURED = 5
    INITIALIZING = 6
    INITIALIZED = 7
    SENDING_I = 8
    SYNCHRONIZING = 9
    SYNCHRONIZED = 10
    RUNNING = 11
    COMPUTING = 12
    COMPUTED = 13
    SENDING_D = 14
    STOPPING = 15
    STOPPED = 16
    ERROR_HANDLING = 17
    ERROR_RESOLVED = 18


class Refusal(enum.IntEnum):
    """Why a request is refused, by the code that the nack has."""
    SEQUENCE = 1
    WRONG_STATE = 2
    NOT_SUPPORTED = 3
    UNKNOWN_VR = 4
    TYPE_MISMATCH = 5
    POSITION = 6
    INCOMPLETE_CONFIG = 7
    INPUTS_MISSING = 8
    BAD_STEPS = 9
    UUID_MISMATCH = 10
    VERSION = 11
    OP_MODE = 12
    VALUE_RANGE = 13
    IN_ERROR_STATE = 14


class Fault(enum.IntEnum):
    """What a slave's fault is, by its code."""
    MODEL_OVERFLOW = 32
    DIVIDE_BY_ZERO = 33
    OUT_OF_RANGE = 34
    HEARTBEAT_MISSED = 35


class Type(NamedTuple):
    """A type of values: its code, its word, its bytes, and whether it is signed."""
    code: int
    word: str
    size: int
    signed: bool

    def holds(self, value: int) -> bool:
        """Whether the value lies in the type."""
        low = -(1 << 8 * self.size - 1) if self.signed else 0
        return low <= value < low + (1 << 8 * self.size)

    def spell(self, value: int) -> bytes:
        """The bytes of a value that lies in the type, the lowest first."""
        return value.to_bytes(self.size, "little", signed=self.signed)

    def read(self, data: bytes) -> int:
        """The value of so many bytes as the type has."""
        return int.from_bytes(data, "little", signed=self.signed)


TYPES = [Type(code, f"{'u' * (code < 4)}int{8 << code % 4}", 1 << code % 4, code >= 4) for code in range(8)]
TYPE_OF = {kind.word: kind for kind in TYPES}
INT64 = TYPE_OF["int64"]
UDP, TCP = 0, 4

_HEAD = ("pdu_seq_id", "receiver")
_CHANGE = (*_HEAD, "state_id")
_NETWORK = (*_HEAD, "data_id", "protocol", "port", "ip")
# Each message that a slave hears: its name, its fields behind the type code, and their widths as in `struct`.
# What follows them, of CFG_parameter and DAT_input_output, is read by itself.
HEARD = {
    0x01: ("STC_register", (*_CHANGE, "slave_uuid", "op_mode", "major_version", "minor_version"), "HBB16sBBB"),
    0x02: ("STC_deregister", _CHANGE, "HBB"),
    0x03: ("STC_prepare", _CHANGE, "HBB"),
    0x04: ("STC_configure", _CHANGE, "HBB"),
    0x05: ("STC_initialize", _CHANGE, "HBB"),
    0x06: ("STC_run", (*_CHANGE, "start_time"), "HBBq"),
    0x07: ("STC_do_step", (*_CHANGE, "steps"), "HBBI"),
    0x08: ("STC_send_outputs", _CHANGE, "HBB"),
    0x09: ("STC_stop", _CHANGE, "HBB"),
    0x0a: ("STC_reset", _CHANGE, "HBB"),
    0x20: ("CFG_time_res", (*_HEAD, "numerator", "denominator"), "HBII"),
    0x21: ("CFG_steps", (*_HEAD, "data_id", "steps"), "HBHI"),
    0x22: ("CFG_input", (*_HEAD, "data_id", "pos", "vr", "source_type"), "HBHHQB"),
    0x23: ("CFG_output", (*_HEAD, "data_id", "pos", "vr"), "HBHHQ"),
    0x24: ("CFG_clear", _HEAD, "HB"),
    0x25: ("CFG_target_network_information", _NETWORK, "HBHBH4s"),
    0x26: ("CFG_source_network_information", _NETWORK, "HBHBH4s"),
    0x27: ("CFG_parameter", (*_HEAD, "vr", "type"), "HBQB"),
    0x28: ("CFG_tunable_parameter", (*_HEAD, "param_id", "pos", "vr", "type"), "HBHHQB"),
    0x29: ("CFG_param_network_information", (*_HEAD, "param_id", "protocol", "port", "ip"), "HBHBH4s"),
    0x2a: ("CFG_logging", (*_HEAD, "category", "level", "mode"), "HBBBB"),
    0x2b: ("CFG_scope", (*_HEAD, "data_id", "scope"), "HBHB"),
    0x80: ("INF_state", _HEAD, "HB"),
    0x81: ("INF_error", _HEAD, "HB"),
    0x82: ("INF_log", (*_HEAD, "category", "max_entries"), "HBBB"),
    0xf0: ("DAT_input_output", ("pdu_seq_id", "data_id"), "HH"),
}
_TYPE_FIELDS = ("type", "source_type")


class Message:
    """A message that was heard: its name, and what its fields hold by their names."""
    __slots__ = ("name", "fields")

    def __init__(self, name: str, fields: dict):
        self.name, self.fields = name, fields

    def __getitem__(self, field: str):
        return self.fields[field]


def read_message(data: bytes) -> Optional[Message]:
    """The message of these bytes where it is one that a slave hears, else None.

    A `type` is the `Type`, an `ip` its dotted form, a `state_id` the `State`, a `slave_uuid` 16 bytes, a `value` a
    number and a `payload` bytes; all else are numbers.
    """
    if not 0 < len(data) <= MOST_BYTES or data[0] not in HEARD:
        return None
    name, names, widths = HEARD[data[0]]
    end = 1 + struct.calcsize("<" + widths)
    if len(data) < end:
        return None
    fields = dict(zip(names, struct.unpack_from("<" + widths, data, 1)))
    if not _name_codes(fields):
        return None
    rest = data[end:]
    if name == "DAT_input_output":
        fields["payload"] = rest
    elif name == "CFG_parameter":
        if len(rest) != fields["type"].size:
            return None
        fields["value"] = fields["type"].read(rest)
    elif rest:
        return None
    return Message(name, fields)


def _name_codes(fields: dict) -> bool:
    """Puts states, types and addresses for their codes. Whether all codes are known."""
    if fields.get("state_id", 0) > max(State) or any(fields.get(name, 0) >= len(TYPES) for name in _TYPE_FIELDS):
        return False
    if "state_id" in fields:
        fields["state_id"] = State(fields["state_id"])
    for name in _TYPE_FIELDS:
        if name in fields:
            fields[name] = TYPES[fields[name]]
    if "ip" in fields:
        fields["ip"] = ".".join(map(str, reversed(fields["ip"])))
    return True


def ack(number: int, sender: int) -> bytes:
    return struct.pack("<BHB", 0xb0, number, sender)


def nack(number: int, sender: int, expected: int, code: Refusal) -> bytes:
    return struct.pack("<BHBHH", 0xb1, number, sender, expected, code)


def state_ack(number: int, sender: int, state: State) -> bytes:
    return struct.pack("<BHBB", 0xb2, number, sender, state)


def error_ack(number: int, sender: int, code: int) -> bytes:
    return struct.pack("<BHBH", 0xb3, number, sender, code)


def log_ack(number: int, sender: int, entries: bytes) -> bytes:
    return struct.pack("<BHB", 0xb4, number, sender) + entries


def state_changed(sender: int, state: State) -> bytes:
    return struct.pack("<BBB", 0xe0, sender, state)


def log_notice(sender: int, category: int, level: int, text: bytes) -> bytes:
    return struct.pack("<BBBB", 0xe1, sender, category, level) + text


def data_message(number: int, data_id: int, payload: bytes) -> bytes:
    return struct.pack("<BHH", 0xf0, number, data_id) + payload


def address_bytes(address: Address) -> bytes:
    """An address as six bytes: its ip, the lowest byte first, and its port."""
    ip, port = address
    return bytes(int(part) for part in reversed(ip.split("."))) + struct.pack("<H", port)


def address_of(six: bytes) -> Address:
    """The address that six bytes name."""
    return ".".join(map(str, reversed(six[:4]))), struct.unpack("<H", six[4:6])[0]

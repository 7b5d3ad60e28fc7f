"""Messages as values and as bytes.

In a message a state is its name, a data type its word, an identity and an address of IPv4 are numbers, and a
rest is bytes.
"""
from typing import NamedTuple

from .codes import STATES, TYPE_OF, TYPES

MOST_BYTES = 1024

# Each message: its code, its name, and its fields with their kinds.
_TABLE = """
01 STC_register pdu_seq_id:u16 receiver:u8 state_id:state slave_uuid:uuid op_mode:u8 major_version:u8 minor_version:u8
02 STC_deregister pdu_seq_id:u16 receiver:u8 state_id:state
03 STC_prepare pdu_seq_id:u16 receiver:u8 state_id:state
04 STC_configure pdu_seq_id:u16 receiver:u8 state_id:state
05 STC_initialize pdu_seq_id:u16 receiver:u8 state_id:state
06 STC_run pdu_seq_id:u16 receiver:u8 state_id:state start_time:i64
07 STC_do_step pdu_seq_id:u16 receiver:u8 state_id:state steps:u32
08 STC_send_outputs pdu_seq_id:u16 receiver:u8 state_id:state
09 STC_stop pdu_seq_id:u16 receiver:u8 state_id:state
0a STC_reset pdu_seq_id:u16 receiver:u8 state_id:state
20 CFG_time_res pdu_seq_id:u16 receiver:u8 numerator:u32 denominator:u32
21 CFG_steps pdu_seq_id:u16 receiver:u8 data_id:u16 steps:u32
22 CFG_input pdu_seq_id:u16 receiver:u8 data_id:u16 pos:u16 vr:u64 source_type:type
23 CFG_output pdu_seq_id:u16 receiver:u8 data_id:u16 pos:u16 vr:u64
24 CFG_clear pdu_seq_id:u16 receiver:u8
25 CFG_target_network_information pdu_seq_id:u16 receiver:u8 data_id:u16 protocol:u8 port:u16 ip:ip
26 CFG_source_network_information pdu_seq_id:u16 receiver:u8 data_id:u16 protocol:u8 port:u16 ip:ip
27 CFG_parameter pdu_seq_id:u16 receiver:u8 vr:u64 type:type value:value
28 CFG_tunable_parameter pdu_seq_id:u16 receiver:u8 param_id:u16 pos:u16 vr:u64 type:type
29 CFG_param_network_information pdu_seq_id:u16 receiver:u8 param_id:u16 protocol:u8 port:u16 ip:ip
2a CFG_logging pdu_seq_id:u16 receiver:u8 category:u8 level:u8 mode:u8
2b CFG_scope pdu_seq_id:u16 receiver:u8 data_id:u16 scope:u8
80 INF_state pdu_seq_id:u16 receiver:u8
81 INF_error pdu_seq_id:u16 receiver:u8
82 INF_log pdu_seq_id:u16 receiver:u8 category:u8 max_entries:u8
b0 RSP_ack resp_seq_id:u16 sender:u8
b1 RSP_nack resp_seq_id:u16 sender:u8 exp_seq_id:u16 error_code:u16
b2 RSP_state_ack resp_seq_id:u16 sender:u8 state_id:state
b3 RSP_error_ack resp_seq_id:u16 sender:u8 error_code:u16
b4 RSP_log_ack resp_seq_id:u16 sender:u8 entries:rest
e0 NTF_state_changed sender:u8 state_id:state
e1 NTF_log sender:u8 category:u8 level:u8 text:rest
f0 DAT_input_output pdu_seq_id:u16 data_id:u16 payload:rest
f1 DAT_parameter pdu_seq_id:u16 param_id:u16 payload:rest
"""

SIZES = {"u8": 1, "u16": 2, "u32": 4, "u64": 8, "i64": 8, "state": 1, "type": 1, "uuid": 16, "ip": 4}
RANGES = {
    "u8": (0, 2**8 - 1), "u16": (0, 2**16 - 1), "u32": (0, 2**32 - 1), "u64": (0, 2**64 - 1),
    "i64": (-(2**63), 2**63 - 1), "type": (0, len(TYPES) - 1),
}


class Layout(NamedTuple):
    """How a message is spelled: its code, its name, and its fields in order with their kinds."""
    code: int
    name: str
    fields: list


def _layouts():
    for line in _TABLE.strip().split("\n"):
        code, name, *fields = line.split(" ")
        yield Layout(int(code, 16), name, [tuple(field.split(":")) for field in fields])


LAYOUTS = {layout.name: layout for layout in _layouts()}
_BY_CODE = {layout.code: layout for layout in LAYOUTS.values()}


class Message:
    """A message: its name and what its fields hold."""
    __slots__ = ("name", "fields")

    def __init__(self, name, **fields):
        self.name, self.fields = name, fields

    def __getitem__(self, field):
        return self.fields[field]

    def is_request(self):
        """Whether it goes from a master to a slave: a change of state, a setting or a question."""
        return self.name[:4] in ("STC_", "CFG_", "INF_")

    def is_answer(self):
        return self.name.startswith("RSP_")


class BytesRefused(Exception):
    """Bytes spell no message: where they cease to be the front of one, and why."""

    def __init__(self, at, why):
        super().__init__(at, why)
        self.at, self.why = at, why


def size_of(kind, fields):
    """The bytes of a field of this kind, behind these fields. A value goes by the type before it."""
    return TYPE_OF[fields["type"]].size if kind == "value" else SIZES[kind]


def decode(data):
    """The message that the bytes spell; BytesRefused where they spell none."""
    if not data:
        raise BytesRefused(0, "EMPTY")
    layout = _BY_CODE.get(data[0])
    if layout is None:
        raise BytesRefused(0, "UNKNOWN_TYPE")
    fields, at = {}, 1
    for name, kind in layout.fields:
        end = _end_of(kind, fields, at, data)
        fields[name] = _read_field(kind, fields, at, data[at:end])
        at = end
    if at < len(data):
        raise BytesRefused(at, "LONG")
    return Message(layout.name, **fields)


def _end_of(kind, fields, at, data):
    """Where the field that begins at this place ends."""
    if kind == "rest":
        if len(data) > MOST_BYTES:
            raise BytesRefused(MOST_BYTES, "TOO_LONG")
        return len(data)
    end = at + size_of(kind, fields)
    if end > len(data):
        raise BytesRefused(len(data), "SHORT")
    return end


def _read_field(kind, fields, at, piece):
    """What the bytes of a field say."""
    if kind == "rest":
        return bytes(piece)
    if kind == "uuid":
        return int.from_bytes(piece, "big")
    if kind == "value":
        return TYPE_OF[fields["type"]].read(piece)
    number = int.from_bytes(piece, "little", signed=kind == "i64")
    if kind == "state":
        if number >= len(STATES):
            raise BytesRefused(at, "BAD_STATE")
        return STATES[number]
    if kind == "type":
        if number >= len(TYPES):
            raise BytesRefused(at, "BAD_TYPE")
        return TYPES[number].word
    return number


def decode_or_none(data):
    """The message that the bytes spell, or None."""
    try:
        return decode(data)
    except BytesRefused:
        return None


def encode(message):
    """The bytes of a message whose fields are in their ranges."""
    layout = LAYOUTS[message.name]
    pieces = [bytes([layout.code])]
    for name, kind in layout.fields:
        pieces.append(_spell_field(kind, message.fields, message.fields[name]))
    return b"".join(pieces)


def _spell_field(kind, fields, value):
    if kind == "rest":
        return value
    if kind == "uuid":
        return value.to_bytes(16, "big")
    if kind == "value":
        return TYPE_OF[fields["type"]].spell(value)
    if kind == "state":
        return bytes([STATES.index(value)])
    if kind == "type":
        return bytes([TYPE_OF[value].code])
    return (value % 256**SIZES[kind]).to_bytes(SIZES[kind], "little")

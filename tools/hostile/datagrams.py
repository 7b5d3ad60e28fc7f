"""The messages of all layouts, each in a form that fits where an end stands, and what becomes of one on a bad way."""
from model.codes import REFUSALS, STATES
from model.messages import LAYOUTS, MOST_BYTES, Message, encode

MASTER = 0x7F000001, 9000
# Who sends the data of the slaves' inputs, and who is no end at all.
PEER, STRANGER = (0x7F000001, 9100), (0x7F000001, 9200)
HERE = MASTER[0]
ID_FIELDS = "receiver", "sender", "data_id", "param_id"
# A bit that makes another number, state or type of a byte, and one that mostly makes none of it.
BITS = 0x01, 0x80
# What fields hold where a message says nothing else.
USUAL = {
    "op_mode": 2, "major_version": 1, "minor_version": 0, "start_time": 0, "steps": 1, "numerator": 1, "denominator": 1000,
    "pos": 0, "vr": 0, "source_type": "int32", "type": "int64", "value": 3, "protocol": 0, "port": 9000, "ip": HERE,
    "param_id": 1, "category": 1, "level": 3, "mode": 0, "scope": 0, "max_entries": 9, "exp_seq_id": 0, "error_code": 1,
    "entries": bytes(11), "text": bytes(9), "payload": bytes(4), "slave_uuid": 0, "data_id": 1,
}


def filled(name, **known):
    """A message of this name, whose fields hold what is known of them, and what is usual."""
    fields = {**USUAL, **known}
    return Message(name, **{field: fields[field] for field, _ in LAYOUTS[name].fields})


def with_other(message, field):
    """The message with the next number in this field."""
    return Message(message.name, **{**message.fields, field: (message[field] + 1) % 256})


def to_others(message):
    """The message with another id, where it has one."""
    for field in ID_FIELDS:
        if field in message.fields:
            yield f"{message.name} with another {field}", encode(with_other(message, field))


def damaged(message):
    """The message cut at each length, lengthened, and with each byte turned; each behind words that tell it."""
    data = encode(message)
    for length in range(len(data)):
        yield f"{message.name} cut to {length} bytes", data[:length]
    yield f"{message.name} and a byte more", data + b"\0"
    for at in range(len(data)):
        for bit in BITS:
            yield f"{message.name} with byte {at} turned by {bit:02x}", data[:at] + bytes([data[at] ^ bit]) + data[at + 1:]


def overlong():
    """Datagrams at and past the most bytes of a message."""
    for code in (0xb4, 0xe1, 0xf0, 0xf1, 0):
        for size in (MOST_BYTES, MOST_BYTES + 1):
            yield f"{size} bytes that begin with {code:02x}", bytes([code]).ljust(size, b"\0")


def answers(number, sender):
    """Every answer to a request of this number, for each state and each code."""
    head = {"resp_seq_id": number, "sender": sender}
    yield "RSP_ack", filled("RSP_ack", **head)
    for state in STATES:
        yield f"RSP_state_ack {state}", filled("RSP_state_ack", state_id=state, **head)
    for why, code in REFUSALS.items():
        yield f"RSP_nack {why}", filled("RSP_nack", error_code=code, **head)
    for code in (0, 32, 33, 34, 35, 65535):
        yield f"RSP_error_ack {code}", filled("RSP_error_ack", error_code=code, **head)
    yield "RSP_log_ack", filled("RSP_log_ack", **head)

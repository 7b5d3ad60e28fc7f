"""The codes of the protocol: data types, states, refusals, faults and transports."""
from typing import NamedTuple


class DataType(NamedTuple):
    """A type of values: its word in texts, its code in messages, its range, and its bytes."""
    word: str
    code: int
    low: int
    high: int
    size: int

    def holds(self, value):
        """Whether the value lies in the type."""
        return self.low <= value <= self.high

    def spell(self, value):
        """The bytes of a value, the lowest digit first."""
        return (value % 256**self.size).to_bytes(self.size, "little")

    def read(self, data):
        """The value that so many bytes spell."""
        return int.from_bytes(data, "little", signed=self.low < 0)


def _data_types():
    for code, bits in enumerate((8, 16, 32, 64)):
        yield DataType(f"uint{bits}", code, 0, 2**bits - 1, bits // 8)
    for code, bits in enumerate((8, 16, 32, 64), 4):
        yield DataType(f"int{bits}", code, -(2**(bits - 1)), 2**(bits - 1) - 1, bits // 8)


# The types in the order of their codes, and by their words.
TYPES = list(_data_types())
TYPE_OF = {kind.word: kind for kind in TYPES}
INT64 = TYPE_OF["int64"]

# The states in the order of their codes. In the model a state is its name.
STATES = """ALIVE CONFIGURATION PREPARING PREPARED CONFIGURING CONFIGURED INITIALIZING INITIALIZED SENDING_I
SYNCHRONIZING SYNCHRONIZED RUNNING COMPUTING COMPUTED SENDING_D STOPPING STOPPED ERROR_HANDLING
ERROR_RESOLVED""".split()
ERROR_STATES = ("ERROR_HANDLING", "ERROR_RESOLVED")

# Why a request is refused, by the word, and the code that a nack has for it.
REFUSALS = {word: code for code, word in enumerate("""SEQUENCE WRONG_STATE NOT_SUPPORTED UNKNOWN_VR TYPE_MISMATCH
POSITION INCOMPLETE_CONFIG INPUTS_MISSING BAD_STEPS UUID_MISMATCH VERSION OP_MODE VALUE_RANGE
IN_ERROR_STATE""".split(), 1)}

# What a slave's fault is, by the word, and the code that tells it.
FAULTS = {word: code for code, word in enumerate("MODEL_OVERFLOW DIVIDE_BY_ZERO OUT_OF_RANGE HEARTBEAT_MISSED".split(), 32)}

UDP, TCP = 0, 4

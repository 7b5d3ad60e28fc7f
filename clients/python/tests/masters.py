"""What the tests play a master with: requests as bytes, and descriptions."""
import pathlib
import struct
import sys

KIT = pathlib.Path(__file__).resolve().parent.parent
sys.path.insert(0, str(KIT))

from dcp_slave import Slave, read_scenario  # noqa: E402
from dcp_slave.device import Device  # noqa: E402
from dcp_slave.messages import HEARD, State  # noqa: E402

MASTER = ("127.0.0.1", 9000)
SOURCE = ("127.0.0.1", 9001)
STRANGER = ("127.0.0.1", 9009)
IDENTITY = bytes(15) + b"\x02"
CODES = {name: (code, widths) for code, (name, _, widths) in HEARD.items()}

TEXT = """steps 1
master 127.0.0.1 9000
slave src
uuid 00000000-0000-0000-0000-000000000001
address 127.0.0.1 9001
model ramp 5 3
output 1 int32
slave amp
uuid 00000000-0000-0000-0000-000000000002
address 127.0.0.1 9002
model gain 131072
input 1 int32
output 2 int16
wire src 0 amp 0
"""


class Doubler(Slave):
    """Gives twice its input, and 1 less the parameter where that is not 131072."""

    def step(self, inputs, micro):
        return [inputs[0] * 2 + (131072 - self.parameters[0]) * micro]

    def accepts(self, index, value):
        return value >= 0


def request(name, number, *fields, receiver=2):
    """The bytes of a request whose further fields are these numbers or bytes."""
    code, widths = CODES[name]
    return struct.pack("<B" + widths, code, number, receiver, *fields)


def register(number=0, state=State.ALIVE, identity=IDENTITY, mode=2, version=(1, 0), receiver=2):
    return request("STC_register", number, state, identity, mode, *version, receiver=receiver)


def data(number, data_id, payload):
    return struct.pack("<BHH", 0xf0, number, data_id) + payload


def scenario_of(extra="", head=""):
    """The scenario as `amp` sees it, with further lines in its block and in the head."""
    changed = TEXT.replace("model gain 131072\n", "model gain 131072\n" + extra)
    return read_scenario((head + changed).encode(), "amp")


SETUP = [
    ("CFG_clear",), ("CFG_time_res", 1, 1000), ("CFG_input", 17, 0, 1, 6),
    ("CFG_source_network_information", 17, 0, 9001, b"\x01\x00\x00\x7f"), ("CFG_output", 2, 0, 2),
    ("CFG_target_network_information", 2, 0, 9000, b"\x01\x00\x00\x7f"),
]


class Played:
    """A device with a master that numbers its requests."""

    def __init__(self, extra="", head="", make=Doubler):
        scenario = scenario_of(extra, head)
        self.device = Device(scenario, make(scenario.description))
        self.number = 0

    def ask(self, name, *fields):
        """Sends the next request. The answer."""
        sends = self.device.on_datagram(MASTER, request(name, self.number, *fields))
        self.number = (self.number + 1) % 65536
        return sends[0][1]

    def code_of(self, name, *fields):
        """The code with which the next request is refused, or 0 where it is acknowledged."""
        answer = self.ask(name, *fields)
        return struct.unpack_from("<H", answer, 6)[0] if answer[0] == 0xb1 else 0

    def register(self):
        assert self.device.on_datagram(MASTER, register())[0][1][0] == 0xb0
        self.number = 1
        return self

    def configured(self):
        """The device after its register and its settings."""
        self.register()
        assert not any(self.code_of(*setting) for setting in SETUP)
        return self

    def change(self, name, *fields):
        """A change of state that names the present one, and a turn. What the turn sends."""
        assert self.code_of(name, self.device.state, *fields) == 0, name
        return self.device.on_turn()

    def running(self):
        """The device in RUNNING, with an input for its first step."""
        return self.configured().started()

    def started(self):
        """The configured device, brought to RUNNING."""
        for name in ("STC_prepare", "STC_configure", "STC_initialize", "STC_send_outputs"):
            self.change(name)
        self.change("STC_run", 0)
        return self

    def feed(self, number, value):
        """The source's data message."""
        self.device.on_datagram(SOURCE, data(number, 17, struct.pack("<i", value)))

    def step(self):
        """A step and its outputs. What the two turns send."""
        return self.change("STC_do_step", 1) + self.change("STC_send_outputs")

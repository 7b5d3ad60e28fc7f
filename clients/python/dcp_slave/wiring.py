"""What is wired to a slave: its data ids, what was kept of its inputs, and what it sends."""
from typing import Iterator, Optional

from .messages import TCP, UDP, Address, Message, Refusal, data_message
from .scenario import Description

MOST_OUTPUT_IDS = 17
MOST_POSITIONS = 8
MOST_INTERVAL = 1000


class DataId:
    """A data id on one side: its ports by position, its other end, its interval, and the base of its numbers."""

    def __init__(self) -> None:
        self.ports: list = []
        self.other_end: Optional[Address] = None
        self.interval = 1
        self.base = 0
        self.kept_for: Optional[int] = None

    def number(self, steps: int) -> int:
        """The number of the message that belongs to so many steps of this run."""
        return (self.base + steps // self.interval) % 65536

    def size(self) -> int:
        """The bytes of a payload."""
        return sum(port.type.size for port in self.ports)

    def restart(self, steps: int) -> None:
        """Begins another run after so many steps: numbers go on, and nothing is kept."""
        self.base += steps // self.interval + 1
        self.kept_for = None


class Wiring:
    """The data ids of both sides, and the values of the inputs."""

    def __init__(self, description: Description):
        self.description = description
        self.clear()

    def clear(self) -> None:
        self.has_resolution = False
        self.inputs: dict = {}
        self.outputs: dict = {}
        self.values = {port.vr: 0 for port in self.description.inputs}

    def apply(self, request: Message) -> Optional[Refusal]:
        """Does a setting, or gives the cause for which it is refused; then nothing changes."""
        return {
            "CFG_clear": self._clear, "CFG_time_res": self._time_res, "CFG_steps": self._steps,
            "CFG_input": self._input, "CFG_output": self._output,
            "CFG_source_network_information": self._source, "CFG_target_network_information": self._target,
        }[request.name](request)

    def _clear(self, _request: Message) -> None:
        self.clear()

    def _time_res(self, request: Message) -> Optional[Refusal]:
        if (request["numerator"], request["denominator"]) != self.description.resolution:
            return Refusal.NOT_SUPPORTED
        self.has_resolution = True
        return None

    def _steps(self, request: Message) -> Optional[Refusal]:
        sides = [side[request["data_id"]] for side in (self.inputs, self.outputs) if request["data_id"] in side]
        if not sides or not 1 <= request["steps"] <= MOST_INTERVAL:
            return Refusal.NOT_SUPPORTED
        for data_id in sides:
            data_id.interval = request["steps"]
        return None

    def _input(self, request: Message) -> Optional[Refusal]:
        port = _port_with(request["vr"], self.description.inputs)
        if port is None:
            return Refusal.UNKNOWN_VR
        if request["source_type"] != port.type:
            return Refusal.TYPE_MISMATCH
        if any(port in data_id.ports for data_id in self.inputs.values()):
            return Refusal.POSITION
        return _add(self.inputs, request, port)

    def _output(self, request: Message) -> Optional[Refusal]:
        if request["data_id"] not in self.outputs and len(self.outputs) == MOST_OUTPUT_IDS:
            return Refusal.NOT_SUPPORTED
        port = _port_with(request["vr"], self.description.outputs)
        if port is None:
            return Refusal.UNKNOWN_VR
        return Refusal.POSITION if request["pos"] >= MOST_POSITIONS else _add(self.outputs, request, port)

    def _source(self, request: Message) -> Optional[Refusal]:
        return _connect(self.inputs, request)

    def _target(self, request: Message) -> Optional[Refusal]:
        return _connect(self.outputs, request)

    def is_complete(self) -> bool:
        """Whether the resolution was told, and the other end of each data id."""
        sides = [*self.inputs.values(), *self.outputs.values()]
        return self.has_resolution and all(data_id.other_end for data_id in sides)

    def take_data(self, sender: Address, message: Message, steps: int) -> None:
        """Keeps a payload where it comes from the source of its id and is the first one for so many steps."""
        data_id = self.inputs.get(message["data_id"])
        if data_id is None or sender != data_id.other_end or message["pdu_seq_id"] != data_id.number(steps):
            return
        if len(message["payload"]) != data_id.size() or data_id.kept_for == steps // data_id.interval:
            return
        data_id.kept_for = steps // data_id.interval
        at = 0
        for port in data_id.ports:
            self.values[port.vr] = port.type.read(message["payload"][at:at + port.type.size])
            at += port.type.size

    def is_ready(self, steps: int) -> bool:
        """Whether each input id has the payload that the next step wants."""
        return all(data_id.kept_for == steps // data_id.interval for data_id in self.inputs.values())

    def input_values(self) -> list:
        """The values of the inputs by port."""
        return [self.values[port.vr] for port in self.description.inputs]

    def data_due(self, steps: int, outputs: list) -> Iterator[tuple]:
        """The data messages that are due after so many steps, each behind the address that it goes to."""
        values = {port.vr: value for port, value in zip(self.description.outputs, outputs)}
        for number, data_id in sorted(self.outputs.items()):
            if steps % data_id.interval == 0:
                payload = b"".join(port.type.spell(values[port.vr]) for port in data_id.ports)
                yield data_id.other_end, data_message(data_id.number(steps), number, payload)

    def restart(self, steps: int) -> None:
        """Begins another run after so many steps."""
        for data_id in (*self.inputs.values(), *self.outputs.values()):
            data_id.restart(steps)
        self.values = dict.fromkeys(self.values, 0)


def _port_with(vr: int, ports: tuple):
    return next((port for port in ports if port.vr == vr), None)


def _add(side: dict, request: Message, port) -> Optional[Refusal]:
    """Adds a port at the next position of an id."""
    count = len(side[request["data_id"]].ports) if request["data_id"] in side else 0
    if request["pos"] != count:
        return Refusal.POSITION
    side.setdefault(request["data_id"], DataId()).ports.append(port)
    return None


def _connect(side: dict, request: Message) -> Optional[Refusal]:
    """Tells the other end of an id that has positions, once."""
    if request["protocol"] not in (UDP, TCP):
        return Refusal.NOT_SUPPORTED
    data_id = side.get(request["data_id"])
    if data_id is None or data_id.other_end is not None:
        return Refusal.POSITION
    data_id.other_end = (request["ip"], request["port"])
    return None

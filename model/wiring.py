"""What is wired to a slave: its data ids, what was kept for its inputs, and what it sends."""
from .codes import TCP, TYPE_OF, UDP
from .messages import Message

MOST_OUTPUT_IDS = 17
MOST_POSITIONS = 8
MOST_INTERVAL = 1000


class DataId:
    """One data id in one direction: its ports by position, the other end, its interval and its base."""

    def __init__(self):
        self.ports = []
        self.other_end = None
        self.interval = 1
        self.base = 0
        self.kept_for = None

    def period(self, steps):
        """How many intervals are over after so many steps of this run."""
        return steps // self.interval

    def number(self, steps):
        """The number of the data message that belongs to so many steps of this run."""
        return (self.base + self.period(steps)) % 65536

    def restart(self, steps):
        """Begins another run after so many steps. Numbers go on, and what was kept is given up."""
        self.base += self.period(steps) + 1
        self.kept_for = None


class Wiring:
    """All data ids of a slave, and the values of its inputs."""

    def __init__(self, description):
        self.description = description
        self.clear()

    def clear(self):
        self.resolution_told = False
        self.inputs, self.outputs = {}, {}
        self.values = [0] * len(self.description.inputs)

    def apply(self, request):
        """Why a setting of the wiring is refused, or None; then it is done."""
        return getattr(self, "_" + request.name.removeprefix("CFG_"))(request)

    def _clear(self, request):
        self.clear()

    def _time_res(self, request):
        if (request["numerator"], request["denominator"]) != self.description.resolution:
            return "NOT_SUPPORTED"
        self.resolution_told = True
        return None

    def _steps(self, request):
        sides = [side[request["data_id"]] for side in (self.inputs, self.outputs) if request["data_id"] in side]
        if not sides or not 1 <= request["steps"] <= MOST_INTERVAL:
            return "NOT_SUPPORTED"
        for data_id in sides:
            data_id.interval = request["steps"]
        return None

    def _input(self, request):
        port = _port_of(self.description.inputs, request["vr"])
        if port is None:
            return "UNKNOWN_VR"
        if request["source_type"] != self.description.inputs[port].type:
            return "TYPE_MISMATCH"
        if any(port in data_id.ports for data_id in self.inputs.values()):
            return "POSITION"
        return _put(self.inputs, request, port)

    def _output(self, request):
        if request["data_id"] not in self.outputs and len(self.outputs) == MOST_OUTPUT_IDS:
            return "NOT_SUPPORTED"
        port = _port_of(self.description.outputs, request["vr"])
        if port is None:
            return "UNKNOWN_VR"
        if request["pos"] >= MOST_POSITIONS:
            return "POSITION"
        return _put(self.outputs, request, port)

    def _source_network_information(self, request):
        return _connect(self.inputs, request)

    def _target_network_information(self, request):
        return _connect(self.outputs, request)

    def is_complete(self):
        """Whether a slave can be prepared: the resolution was told, and each id has its other end."""
        sides = list(self.inputs.values()) + list(self.outputs.values())
        return self.resolution_told and all(data_id.other_end is not None for data_id in sides)

    def take_data(self, sender, message, steps):
        """Keeps the payload of a data message, where it is the one that belongs to so many steps."""
        data_id = self.inputs.get(message["data_id"])
        if data_id is None or sender != data_id.other_end or message["pdu_seq_id"] != data_id.number(steps):
            return
        if len(message["payload"]) != self.length_of(data_id) or data_id.kept_for == data_id.period(steps):
            return
        data_id.kept_for = data_id.period(steps)
        at = 0
        for port in data_id.ports:
            kind = TYPE_OF[self.description.inputs[port].type]
            self.values[port] = kind.read(message["payload"][at:at + kind.size])
            at += kind.size

    def length_of(self, data_id):
        """The bytes of a payload of an input id."""
        return sum(TYPE_OF[self.description.inputs[port].type].size for port in data_id.ports)

    def is_ready(self, steps):
        """Whether each input id has the payload that the next step needs."""
        return all(data_id.kept_for == data_id.period(steps) for data_id in self.inputs.values())

    def due(self, steps):
        """The output ids that are sent after so many steps, in order."""
        return [(number, data_id) for number, data_id in sorted(self.outputs.items()) if steps % data_id.interval == 0]

    def data_of(self, steps, outputs):
        """The data messages that are due after so many steps, each behind the address that it goes to."""
        for number, data_id in self.due(steps):
            ports = [(TYPE_OF[self.description.outputs[port].type], outputs[port]) for port in data_id.ports]
            payload = b"".join(kind.spell(value) for kind, value in ports)
            message = Message("DAT_input_output", pdu_seq_id=data_id.number(steps), data_id=number, payload=payload)
            yield data_id.other_end, message

    def restart(self, steps):
        """Begins another run after so many steps."""
        for data_id in list(self.inputs.values()) + list(self.outputs.values()):
            data_id.restart(steps)
        self.values = [0] * len(self.description.inputs)


def _port_of(ports, vr):
    """The place of the port with this value reference, or None."""
    return next((place for place, port in enumerate(ports) if port.vr == vr), None)


def _put(side, request, port):
    """Adds the next position of a data id."""
    here = side.get(request["data_id"])
    if request["pos"] != (len(here.ports) if here else 0):
        return "POSITION"
    side.setdefault(request["data_id"], DataId()).ports.append(port)
    return None


def _connect(side, request):
    """Tells the other end of a data id that has positions, once."""
    if request["protocol"] not in (UDP, TCP):
        return "NOT_SUPPORTED"
    data_id = side.get(request["data_id"])
    if data_id is None or data_id.other_end is not None:
        return "POSITION"
    data_id.other_end = request["ip"], request["port"]
    return None

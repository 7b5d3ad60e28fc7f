"""The texts of descriptions and scenarios, read line by line.

The first line that breaks a rule after the lines before it is refused, with the first rule that it breaks.
"""
import re

from .codes import TCP, TYPE_OF, UDP
from .kinds import EXTERNAL, KINDS, has_ports, takes_parameters
from .scenario import LIMITS, Chaos, Description, NetLine, Port, Scenario, Setting, Wire
from .words import (Refused, TextRefused, address_of, int64_of, name_of, number_of, number_or_none, print_ip, print_uuid,
                    split_lines, uuid_of, words_of)

HEAD, SLAVES, LINKS = range(3)
MOST_SLAVES, MOST_PORTS, MOST_NET_LINES = 16, 8, 64
MOST_SLAVE_STEPS, MOST_VALUES = 200_000, 1_000_000
UINT64_MOST = 2**64 - 1
_TYPE_ID = re.compile(r"[0-9a-fA-F]{2}\Z")

# The numbers of the head, with their ranges.
HEAD_NUMBERS = {
    "steps": (0, 100_000), "micro": (1, 1000), "runs": (1, 100), "turn_limit": (1, 1000), "tries": (1, 20),
    "watch_turns": (1, 1000), "state_limit": (1, 1000), "retry_turns": (1, 1000), "data_turns": (1, 1000),
    "step_tries": (2, 20),
}

# The keys of each section, with how many words stand behind them; `model` has one at least.
_WORDS = {
    HEAD: {**{key: 1 for key in HEAD_NUMBERS}, "master": 2, "protocol": 1},
    SLAVES: {"slave": 1, "uuid": 1, "address": 2, "model": None, "busy": 1, "heartbeat": 1, "resolution": 2, "input": 2,
             "output": 2},
    LINKS: {"wire": 4, "set": 3, "rerun_set": 4, "every": 3, "drop": 3, "copy": 4, "hold": 4, "chaos": 4},
}
_SECTION = {key: section for section, keys in _WORDS.items() for key in keys}
_OFTEN = ("slave", "input", "output", "wire", "set", "rerun_set", "every", "drop", "copy", "hold")


class DescriptionReader:
    """What the lines of a description have said so far."""
    sections = (SLAVES,)

    def __init__(self):
        self.scenario = Scenario()
        self.section = self.sections[0]
        self.seen = set()
        self.open = None

    def line(self, words):
        """Takes the words of a line, or refuses it."""
        key, *rest = words
        self.judge_key(key)
        if key in self.seen and key not in _OFTEN:
            raise Refused("REPEATED")
        count = _WORDS[_SECTION[key]][key]
        if not rest if count is None else len(rest) != count:
            raise Refused("WORDS")
        if key in HEAD_NUMBERS:
            self.head_number(key, *rest)
        else:
            getattr(self, f"take_{key}")(*rest)
        self.seen.add(key)

    def judge_key(self, key):
        """Whether this key may stand here, in a description alone."""
        if _SECTION.get(key) != SLAVES:
            raise Refused("UNKNOWN_KEY")
        if key == "slave" and self.open:
            raise Refused("REPEATED")
        if key != "slave" and not self.open:
            raise Refused("MISSING")

    def end(self):
        """The description, once the text has ended."""
        self.close_block()
        return self.scenario.slaves[0]

    def close_block(self):
        """The lines of a slave are over: nothing that is needed may be absent."""
        if not self.open or not self.seen >= {"uuid", "address", "model", "output"}:
            raise Refused("MISSING")
        if not has_ports(self.open.kind, len(self.open.inputs), len(self.open.outputs)):
            raise Refused("PORTS")
        self.open, self.seen = None, set()

    def take_slave(self, name):
        name_of(name)
        if name in [slave.name for slave in self.scenario.slaves]:
            raise Refused("REPEATED")
        if len(self.scenario.slaves) == MOST_SLAVES:
            raise Refused("LIMIT")
        self.open = Description(name)
        self.scenario.slaves.append(self.open)

    def take_uuid(self, word):
        self.open.uuid = uuid_of(word)

    def take_address(self, ip, port):
        address = address_of(ip, port)
        if address in self.scenario.addresses():
            raise Refused("SAME_ADDRESS")
        self.open.address = address

    def take_model(self, kind, *words):
        if kind not in KINDS and kind != EXTERNAL:
            raise Refused("UNKNOWN_MODEL")
        parameters = [int64_of(word) for word in words]
        if not takes_parameters(kind, parameters):
            raise Refused("PARAMETERS")
        self.open.kind, self.open.parameters = kind, parameters

    def take_busy(self, word):
        self.open.busy = number_of(word, 0, 50)

    def take_heartbeat(self, word):
        self.open.heartbeat = number_of(word, 0, 100_000)

    def take_resolution(self, numerator, denominator):
        self.open.resolution = tuple(number_of(word, 1, 2**32 - 1) for word in (numerator, denominator))

    def take_input(self, vr, word):
        self.open.inputs.append(self.port(self.open.inputs, vr, word))

    def take_output(self, vr, word):
        self.open.outputs.append(self.port(self.open.outputs, vr, word))

    def port(self, ports, vr, word):
        """One more port of this direction."""
        reference = number_of(vr, 0, UINT64_MOST)
        if word not in TYPE_OF:
            raise Refused("UNSUPPORTED_TYPE")
        if reference in [port.vr for port in ports]:
            raise Refused("REPEATED")
        if len(ports) == MOST_PORTS:
            raise Refused("LIMIT")
        return Port(reference, word)


def model_line(text, nth):
    """The line of the model of the nth slave of a text that reads, both from 1 on."""
    return [at for at, line in enumerate(split_lines(text), 1) if words_of(line)[:1] == ["model"]][nth - 1]


class ScenarioReader(DescriptionReader):
    """What the lines of a scenario have said so far."""
    sections = (HEAD, SLAVES, LINKS)

    def judge_key(self, key):
        """Whether this key may stand here, and what it closes."""
        if key not in _SECTION:
            raise Refused("UNKNOWN_KEY")
        section = _SECTION[key]
        if section < self.section:
            raise Refused("ORDER")
        if self.section == HEAD and section > HEAD:
            self.close_head()
        if self.section == SLAVES and section > SLAVES:
            self.close_slaves()
        if key == "slave" and self.open:
            self.close_block()
        if section == SLAVES and key != "slave" and not self.open:
            raise Refused("MISSING")

    def end(self):
        """The scenario, once the text has ended."""
        if self.section == HEAD:
            self.close_head()
        if self.section == SLAVES:
            self.close_slaves()
        return self.scenario

    def close_head(self):
        if not self.seen >= {"steps", "master"}:
            raise Refused("MISSING")
        self.section, self.seen = SLAVES, set()

    def close_slaves(self):
        """All slaves are there: now the size of the scenario is known."""
        self.close_block()
        scenario, values = self.scenario, sum(len(slave.outputs) for slave in self.scenario.slaves)
        if len(scenario.slaves) * scenario.steps * scenario.runs > MOST_SLAVE_STEPS:
            raise Refused("LIMIT")
        if values * (scenario.steps + 1) * scenario.runs > MOST_VALUES:
            raise Refused("LIMIT")
        self.section = LINKS

    def head_number(self, key, word):
        number = number_of(word, *HEAD_NUMBERS[key])
        if key in LIMITS:
            self.scenario.limits[key] = number
        else:
            setattr(self.scenario, key, number)

    def take_master(self, ip, port):
        self.scenario.master = address_of(ip, port)

    def take_protocol(self, word):
        if word not in ("udp", "tcp"):
            raise Refused("BAD_NUMBER")
        self.scenario.protocol = UDP if word == "udp" else TCP

    def slave_of(self, word):
        """The number of the slave with this name."""
        name_of(word)
        for number, slave in self.scenario.numbered():
            if slave.name == word:
                return number
        raise Refused("UNKNOWN_SLAVE")

    def place_of(self, word, places):
        """The place of a port or a parameter in a list. A number of any size may be none."""
        number = number_or_none(word)
        if number is None:
            raise Refused("BAD_NUMBER")
        if number >= len(places):
            raise Refused("UNKNOWN_PORT")
        return number

    def take_wire(self, source, out, target, into):
        slaves = self.scenario.slaves
        from_slave = self.slave_of(source)
        outputs = slaves[from_slave - 1].outputs
        from_port = self.place_of(out, outputs)
        to_slave = self.slave_of(target)
        inputs = slaves[to_slave - 1].inputs
        to_port = self.place_of(into, inputs)
        if outputs[from_port].type != inputs[to_port].type:
            raise Refused("TYPE_MISMATCH")
        if (to_slave, to_port) in [wire[2:] for wire in self.scenario.wires]:
            raise Refused("TWO_WIRES")
        self.scenario.wires.append(Wire(from_slave, from_port, to_slave, to_port))

    def take_set(self, slave, index, value):
        self.setting(1, slave, index, value)

    def take_rerun_set(self, run, slave, index, value):
        self.setting(number_of(run, 2, self.scenario.runs), slave, index, value)

    def setting(self, run, slave, index, value):
        """One more setting, not before one of a later run. The kind takes its parameters after all of them."""
        number = self.slave_of(slave)
        description = self.scenario.slaves[number - 1]
        setting = Setting(run, number, self.place_of(index, description.parameters), int64_of(value))
        settings = self.scenario.settings
        if settings and settings[-1].run > run:
            raise Refused("ORDER")
        parameters = self.scenario.parameters_of(number, run)
        parameters[setting.index] = setting.value
        if not takes_parameters(description.kind, parameters):
            raise Refused("PARAMETERS")
        settings.append(setting)

    def take_every(self, source, target, steps):
        pair = self.slave_of(source), self.slave_of(target)
        interval = number_of(steps, 1, 1000)
        if pair in self.scenario.intervals:
            raise Refused("REPEATED")
        if pair not in [(wire.source, wire.target) for wire in self.scenario.wires]:
            raise Refused("NO_WIRE")
        self.scenario.intervals[pair] = interval

    def take_drop(self, end, type_id, nth):
        self.net_line("drop", end, type_id, nth, "1")

    def take_copy(self, end, type_id, nth, lag):
        self.net_line("copy", end, type_id, nth, lag)

    def take_hold(self, end, type_id, nth, lag):
        self.net_line("hold", end, type_id, nth, lag)

    def net_line(self, what, end, type_id, nth, lag):
        number = number_or_none(end)
        if number is None:
            raise Refused("BAD_NUMBER")
        if number > len(self.scenario.slaves):
            raise Refused("UNKNOWN_SLAVE")
        if not _TYPE_ID.match(type_id):
            raise Refused("BAD_NUMBER")
        line = NetLine(what, number, int(type_id, 16), number_of(nth, 0, 1_000_000), number_of(lag, 1, 1000))
        if len(self.scenario.net) == MOST_NET_LINES:
            raise Refused("LIMIT")
        self.scenario.net.append(line)

    def take_chaos(self, start, *rates):
        self.scenario.chaos = Chaos(number_of(start, 0, UINT64_MOST), *(number_of(word, 0, 1000) for word in rates))


def read_lines(text, reader):
    """What the reader makes of all lines. What is absent is told at the line after the last."""
    number = 0
    try:
        for line in split_lines(text):
            number += 1
            words = words_of(line)
            if words:
                reader.line(words)
        number += 1
        return reader.end()
    except Refused as refused:
        raise TextRefused(number, refused.why) from None


def read_description(text):
    return read_lines(text, DescriptionReader())


def read_scenario(text):
    return read_lines(text, ScenarioReader())


def print_description(slave):
    """The canonical text of a description."""
    lines = [
        f"slave {slave.name}",
        f"uuid {print_uuid(slave.uuid)}",
        f"address {print_ip(slave.address[0])} {slave.address[1]}",
        " ".join(["model", slave.kind] + [str(it) for it in slave.parameters]),
        f"busy {slave.busy}",
        f"heartbeat {slave.heartbeat}",
        "resolution {} {}".format(*slave.resolution),
    ]
    lines += [f"input {port.vr} {port.type}" for port in slave.inputs]
    lines += [f"output {port.vr} {port.type}" for port in slave.outputs]
    return "".join(line + "\n" for line in lines)

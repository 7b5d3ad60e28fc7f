"""Descriptions of slaves and scenarios as values."""
from dataclasses import dataclass, field
from typing import NamedTuple

from .codes import UDP

LIMITS = {"turn_limit": 50, "tries": 4, "watch_turns": 20, "state_limit": 200, "retry_turns": 20, "data_turns": 20,
          "step_tries": 3}


class Port(NamedTuple):
    """An input or an output: its value reference and the word of its type."""
    vr: int
    type: str


class Wire(NamedTuple):
    """Output `out` of slave `source` feeds input `into` of slave `target`. Slaves count from 1, ports from 0."""
    source: int
    out: int
    target: int
    into: int


class Setting(NamedTuple):
    """A parameter of a slave, from 0, that is set before the run, from 1."""
    run: int
    slave: int
    index: int
    value: int


class NetLine(NamedTuple):
    """What befalls the nth message with this type code of an end, or each where nth is 0."""
    what: str
    end: int
    type_id: int
    nth: int
    lag: int


class Chaos(NamedTuple):
    """Where the generator begins, and how many messages of a thousand are lost, repeated and held."""
    start: int
    drop: int
    repeat: int
    hold: int


@dataclass
class Description:
    """One slave."""
    name: str
    uuid: int = None
    address: tuple = None
    kind: str = None
    parameters: list = None
    busy: int = 0
    heartbeat: int = 0
    resolution: tuple = (1, 1000)
    inputs: list = field(default_factory=list)
    outputs: list = field(default_factory=list)

    def output_types(self):
        return [port.type for port in self.outputs]


@dataclass
class Scenario:
    """A whole scenario. `settings` are those before all runs, in the order of the text."""
    steps: int = 0
    micro: int = 1
    runs: int = 1
    protocol: int = UDP
    master: tuple = None
    limits: dict = field(default_factory=lambda: dict(LIMITS))
    slaves: list = field(default_factory=list)
    wires: list = field(default_factory=list)
    settings: list = field(default_factory=list)
    intervals: dict = field(default_factory=dict)
    net: list = field(default_factory=list)
    chaos: Chaos = None

    def numbered(self):
        """The slaves with their numbers, from 1 on."""
        return enumerate(self.slaves, 1)

    def interval(self, source, target):
        """Each how many steps the slave `source` sends to the slave `target`."""
        return self.intervals.get((source, target), 1)

    def addresses(self):
        """The addresses of all ends, the master's first."""
        return [self.master] + [slave.address for slave in self.slaves]

    def settings_of(self, slave, run):
        """What is set of a slave before a run, in order."""
        return [it for it in self.settings if it.slave == slave and it.run == run]

    def parameters_of(self, slave, run):
        """The parameters of a slave in a run: settings stay for all later runs."""
        parameters = list(self.slaves[slave - 1].parameters)
        for setting in self.settings:
            if setting.slave == slave and setting.run <= run:
                parameters[setting.index] = setting.value
        return parameters

"""The plan of a scenario: its data ids, and the settings that each slave is sent."""
from typing import NamedTuple

from .codes import INT64
from .messages import Message

# The id of the first pair of slaves; below stand those by which each slave shows its outputs to the master.
FIRST_PAIR = 17
MASTER = 0


class DataLink(NamedTuple):
    """A data id: the end that sends, the end that receives, and each how many steps it does."""
    id: int
    source: int
    target: int
    interval: int


class Plan:
    """What a master sets of each slave."""

    def __init__(self, scenario):
        self.scenario = scenario
        pairs = sorted({(wire.source, wire.target) for wire in scenario.wires})
        self.pairs = [DataLink(number, *pair, scenario.interval(*pair)) for number, pair in enumerate(pairs, FIRST_PAIR)]
        self.shows = [DataLink(number, number, MASTER, 1) for number, _ in scenario.numbered()]

    def links(self):
        """All data ids, in order."""
        return self.shows + self.pairs

    def setup(self, slave):
        """The settings of a slave before the first run, in order. Number and receiver are left out."""
        description = self.scenario.slaves[slave - 1]
        numerator, denominator = description.resolution
        requests = [Message("CFG_clear"), Message("CFG_time_res", numerator=numerator, denominator=denominator)]
        requests += self.parameters(slave, 1)
        for link in self.pairs:
            if link.target == slave:
                requests += self.inputs_of(link) + _interval_of(link)
        for link in self.pairs + [self.shows[slave - 1]]:
            if link.source == slave:
                requests += self.outputs_of(link) + _interval_of(link)
        return requests

    def adjust(self, run, slave):
        """The settings of a slave between this run and the next."""
        return self.parameters(slave, run + 1)

    def parameters(self, slave, run):
        return [Message("CFG_parameter", vr=setting.index, type=INT64.word, value=setting.value)
                for setting in self.scenario.settings_of(slave, run)]

    def wires_of(self, link):
        """The wires that a data id carries, in the order of their positions."""
        wires = self.scenario.wires
        return sorted((wire.out, wire.into) for wire in wires if (wire.source, wire.target) == (link.source, link.target))

    def inputs_of(self, link):
        inputs = [self.scenario.slaves[link.target - 1].inputs[into] for _, into in self.wires_of(link)]
        return [Message("CFG_input", data_id=link.id, pos=position, vr=port.vr, source_type=port.type)
                for position, port in enumerate(inputs)] + [self.network("source", link, link.source)]

    def outputs_of(self, link):
        outputs = self.scenario.slaves[link.source - 1].outputs
        if link.target != MASTER:
            outputs = [outputs[out] for out, _ in self.wires_of(link)]
        return [Message("CFG_output", data_id=link.id, pos=position, vr=port.vr)
                for position, port in enumerate(outputs)] + [self.network("target", link, link.target)]

    def network(self, which, link, end):
        ip, port = self.scenario.addresses()[end]
        return Message(f"CFG_{which}_network_information", data_id=link.id, protocol=self.scenario.protocol, port=port, ip=ip)


def _interval_of(link):
    """The interval is set only where it is not the one that a data id has at first."""
    return [Message("CFG_steps", data_id=link.id, steps=link.interval)] if link.interval != 1 else []

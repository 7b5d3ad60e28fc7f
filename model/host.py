"""The hosted ends of a scenario: their rounds over a network, their log, and a log gone through again."""
from typing import NamedTuple

from .master import Master
from .network import Network
from .plan import Plan
from .slave import Slave

MOST_DATAGRAMS = 64


class Sent(NamedTuple):
    """A datagram was sent."""
    sender: tuple
    to: tuple
    data: bytes


class Got(NamedTuple):
    """A datagram was taken at an address."""
    at: tuple
    sender: tuple
    data: bytes


class Idle(NamedTuple):
    """A look found nothing."""
    at: tuple


class Turn(NamedTuple):
    """An end had its turn."""
    at: tuple


def ends_of(scenario, hosted):
    """The hosted ends in order: bit 0 of the number is the master, bit s is slave s."""
    ends = [Master(scenario, Plan(scenario))] if hosted & 1 else []
    return ends + [Slave(slave, scenario.micro) for number, slave in scenario.numbered() if hosted >> number & 1]


def all_ends(scenario):
    """The bits of all ends."""
    return 2 ** (len(scenario.slaves) + 1) - 1


def master_of(ends):
    """The master among these ends, or None."""
    return next((end for end in ends if isinstance(end, Master)), None)


class Host:
    """All ends of a scenario over its network in memory."""

    def __init__(self, scenario):
        self.hosted = all_ends(scenario)
        self.ends = ends_of(scenario, self.hosted)
        self.master = self.ends[0]
        self.network = Network(scenario.addresses(), scenario.net, scenario.chaos)
        self.log = []

    def run(self):
        """Goes on round by round until the master has its report."""
        while not self.master.report:
            self.round()

    def round(self):
        """Each end takes what is there for it; then each has its turn."""
        for end in self.ends:
            self.look(end)
        for end in self.ends:
            self.log.append(Turn(end.address))
            end.on_turn()
            self.send_all(end)
            if self.master.report:
                return

    def look(self, end):
        for _ in range(MOST_DATAGRAMS):
            taken = self.network.take(end.address)
            if taken is None:
                self.log.append(Idle(end.address))
                return
            self.log.append(Got(end.address, *taken))
            end.on_datagram(*taken)
            self.send_all(end)

    def send_all(self, end):
        for to, data in end.outgoing:
            self.network.send(end.address, to, data)
            self.log.append(Sent(end.address, to, data))
        end.outgoing = []


class Differs(Exception):
    """The first entry, from 0, that the ends would not have."""

    def __init__(self, at):
        super().__init__(at)
        self.at = at


class Unended(Exception):
    """A log that breaks off after so many entries."""

    def __init__(self, entries):
        super().__init__(entries)
        self.entries = entries


def replay(scenario, hosted, log):
    """The master after a log that the hosted ends, made anew, have too; Differs or Unended where they do not."""
    ends = ends_of(scenario, hosted)
    at_address = {end.address: end for end in ends}
    master, owed = master_of(ends), []
    for at, entry in enumerate(log):
        if master and master.report:
            raise Differs(at)
        if isinstance(entry, Sent) or owed:
            if not owed or not isinstance(entry, Sent) or entry != owed.pop(0):
                raise Differs(at)
        elif entry.at in at_address:
            owed = sent_at(at_address[entry.at], entry)
        else:
            raise Differs(at)
    if owed or not master or not master.report:
        raise Unended(len(log))
    return master


def sent_at(end, entry):
    """What an end sends at an event."""
    if isinstance(entry, Got):
        end.on_datagram(entry.sender, entry.data)
    elif isinstance(entry, Turn):
        end.on_turn()
    sent = [Sent(end.address, to, data) for to, data in end.outgoing]
    end.outgoing = []
    return sent

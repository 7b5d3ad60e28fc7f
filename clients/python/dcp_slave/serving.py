"""Runs a slave: its rounds over the network, and its words on a command line."""
import argparse
import sys
import time
from typing import BinaryIO, Callable, Optional

from .device import Device
from .ends import open_end
from .messages import State
from .scenario import Description, Scenario, ScenarioError, read_scenario
from .slave import Slave
from .tracing import Trace

LONGEST_WAIT = 0.01
MOST_DATAGRAMS = 64


def serve(scenario: Scenario, slave: Slave, trace: Optional[BinaryIO] = None, stay: Optional[float] = None) -> Device:
    """Runs the slave at its address until its session is over. Gives its last stand.

    What it gets, sends and its turns go to `trace`. Behind its deregister it stays for so many seconds since it last
    heard anything, so that a master whose last answer was lost gets it again; where `stay` is not given, until such a
    master has given up. OSError where the address is in use, or is not one of this machine.
    """
    device, end = Device(scenario, slave), open_end(scenario.protocol, scenario.description.address)
    host = Host(device, end, Trace(trace, scenario))
    try:
        while not device.is_over():
            host.round()
        if device.has_ended:
            host.stay(patience_of(scenario) if stay is None else stay)
    finally:
        end.close()
    return device


def patience_of(scenario: Scenario) -> float:
    """For how many seconds, at most, a master sends a request again behind its first time."""
    return (scenario.tries - 1) * scenario.turn_limit * LONGEST_WAIT + 0.5


class Host:
    """A slave over the network."""

    def __init__(self, device: Device, end, trace: Trace):
        self.device, self.end, self.trace = device, end, trace

    def round(self) -> bool:
        """Waits, takes what is there, and has the turn of the slave. Whether something was there."""
        self.end.wait(LONGEST_WAIT)
        count = self.take_all()
        # A turn of a slave that nobody has registered does nothing, so a slave that waits for long has a short trace.
        if self.device.is_registered():
            self.trace.turn()
            self.send_all(self.device.on_turn())
        return count > 0

    def take_all(self) -> int:
        """Takes what is there. How many messages."""
        for count in range(MOST_DATAGRAMS):
            taken = self.end.take()
            if taken is None:
                return count
            self.trace.got(*taken)
            self.send_all(self.device.on_datagram(*taken))
        return MOST_DATAGRAMS

    def send_all(self, sends: list) -> None:
        for to, data in sends:
            self.trace.sent(to, data)
            self.end.send(to, data)

    def stay(self, seconds: float) -> None:
        """Answers the last request again until nothing was heard for so long."""
        until = time.monotonic() + seconds
        while time.monotonic() < until:
            if self.round():
                until = time.monotonic() + seconds


def main(make: Callable[[Description], Slave], words: Optional[list] = None) -> int:
    """Runs a slave by the words of a command line, NAME [--trace FILE] [--stay SECONDS] < SCENARIO, and prints the line
    of a slave as `./dcpctl slave` does. The exit status: 0, 130 after an interrupt, 2 for a scenario that does not
    read, 3 after a fault, 6 where the address cannot be had."""
    usage = "%(prog)s NAME [--trace FILE] [--stay SECONDS] < SCENARIO"
    parser = argparse.ArgumentParser(description=make.__doc__, usage=usage)
    parser.add_argument("name", metavar="NAME", help="the name of the slave in the scenario on standard input")
    parser.add_argument("--trace", metavar="FILE", type=argparse.FileType("wb"), help="where its trace goes")
    parser.add_argument("--stay", metavar="SECONDS", type=float, help="how long it stays behind its last answer")
    given = parser.parse_args(words)
    try:
        scenario = read_scenario(sys.stdin.buffer.read(), given.name)
        device = serve(scenario, make(scenario.description), given.trace, given.stay)
    except ScenarioError as error:
        print(error, file=sys.stderr)
        return 2
    except OSError as error:
        print(f"{scenario.description.address}: {error}", file=sys.stderr)
        return 6
    except KeyboardInterrupt:
        return 130
    finally:
        if given.trace:
            given.trace.close()
    print(last_line(device))
    return 3 if device.fault else 0


def last_line(device: Device) -> str:
    """The name of the slave, its steps since the last reset, its state, and its fault."""
    state = State(device.state).name
    fault = f" error {int(device.fault)}" if device.fault else ""
    return f"slave {device.description.name} steps {device.steps} state {state}{fault}"

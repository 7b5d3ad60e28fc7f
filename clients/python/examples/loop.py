#!/usr/bin/env python3
"""A coupling of two: an amplifier and an integrator, each wired to the other.

The slave `amp` of the scenario is the amplifier, and `acc` the integrator. They compute what the kinds `gain` and
`integrator` do, so their rows are those of `./dcpctl reference`.
"""
import pathlib
import sys

sys.path.insert(0, str(pathlib.Path(__file__).resolve().parent.parent))

from dcp_slave import Slave, main  # noqa: E402


def scaled(factor, value):
    """The value times a factor in 65,536ths, rounded down."""
    return factor * value >> 16


class Amplifier(Slave):
    """Multiplies its input by its parameter."""

    def step(self, inputs, micro):
        return [scaled(self.parameters[0], inputs[0])]


class Integrator(Slave):
    """Adds a share of its input to its value in each micro step."""

    def start(self):
        self.value = self.parameters[0]
        return [self.value]

    def step(self, inputs, micro):
        for _ in range(micro):
            self.value += scaled(self.parameters[1], inputs[0])
        return [self.value]


def make(description):
    """The amplifier or the integrator, by the kind of the slave's block."""
    return {"gain": Amplifier, "integrator": Integrator}[description.kind](description)


if __name__ == "__main__":
    make.__doc__ = __doc__
    sys.exit(main(make))

#!/usr/bin/env python3
"""A heat exchanger: two streams that come in, two that go out, computed in floating point.

No built-in kind has two inputs and two outputs, so its block of the scenario says `model external`. Its parameters are
the share of the difference that passes from the warm stream to the cold one in a step, in thousandths, and the
temperature of both at first. All temperatures at its ports are tenths of a degree.
"""
import pathlib
import sys

sys.path.insert(0, str(pathlib.Path(__file__).resolve().parent.parent))

from dcp_slave import Slave, main  # noqa: E402


class Exchanger(Slave):
    """A heat exchanger with a warm and a cold stream."""

    def start(self):
        share, first = self.parameters
        self.share = share / 1000
        self.warm = self.cold = float(first)
        return self.outputs()

    def step(self, inputs, micro):
        warm, cold = inputs
        for _ in range(micro):
            passes = self.share * (warm - cold)
            self.warm += (warm - passes - self.warm) / 2
            self.cold += (cold + passes - self.cold) / 2
        return self.outputs()

    def outputs(self):
        return round(self.warm), round(self.cold)

    def accepts(self, index, value):
        return index != 0 or 0 <= value <= 500


if __name__ == "__main__":
    sys.exit(main(Exchanger))

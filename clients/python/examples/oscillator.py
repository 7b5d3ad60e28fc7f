#!/usr/bin/env python3
"""An oscillator in floating point, whose position and speed are rounded at the ports.

Its parameters are those of the kind `oscillator`: the position and the speed at first, and the two factors of a step,
in 65,536ths. The kind rounds down at each step, and this slave nowhere but at its ports, so their rows drift apart.
"""
import pathlib
import sys

sys.path.insert(0, str(pathlib.Path(__file__).resolve().parent.parent))

from dcp_slave import Slave, main  # noqa: E402


class Oscillator(Slave):
    """An oscillator in floating point."""

    def start(self):
        self.position, self.speed, h, w = map(float, self.parameters)
        self.h, self.w = h / 65536, w / 65536
        return self.outputs()

    def step(self, inputs, micro):
        for _ in range(micro):
            self.position += self.h * self.speed
            self.speed -= self.w * self.position
        return self.outputs()

    def outputs(self):
        return round(self.position), round(self.speed)


if __name__ == "__main__":
    sys.exit(main(Oscillator))

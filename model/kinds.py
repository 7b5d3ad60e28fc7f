"""The fourteen models that a slave can step.

A factor or a share counts in units of 1 / 65,536. The state is a tuple of numbers of 64 bits with a sign.
"""
from typing import Callable, NamedTuple

from .codes import INT64, TYPE_OF

UNIT = 65536


class ModelFault(Exception):
    """A model cannot go on; `why` is the word of the fault."""

    def __init__(self, why):
        super().__init__(why)
        self.why = why


class BadParameters(Exception):
    """A kind refuses its parameters."""


class Kind(NamedTuple):
    """A row of the table of models. `step` gives the state after a state and inputs, and `outputs` what is
    shown of a state; each takes the parameters first."""
    parameters: int
    least_inputs: int
    most_inputs: int
    first: Callable
    step: Callable
    outputs: Callable
    takes: Callable = lambda p: True


def scaled(product):
    """A product in units, rounded down also where it is negative."""
    return product // UNIT


def clipped(value, low, high):
    return min(max(value, low), high)


def _deadband(width, value):
    """How far the value is outside of the band around 0."""
    return value - clipped(value, -width, width)


def _divided(dividend, divisor):
    if divisor == 0:
        raise ModelFault("DIVIDE_BY_ZERO")
    return dividend * UNIT // divisor


def _oscillator(p, state):
    """The place goes on by the old speed, and the speed then by the new place."""
    place = state[0] + scaled(p[2] * state[1])
    return place, state[1] - scaled(p[3] * place)


def _tank(p, state, inflow):
    """A tank has no level below 0; inflow and outflow are rounded each for itself."""
    return (max(0, state[0] + scaled(p[1] * inflow) - scaled(p[2] * state[0])),)


def _shown(p, state):
    return state


def _zero(p):
    return (0,)


def _initial(p):
    return (p[0],)


def _is_share(value):
    return 0 <= value <= UNIT


KINDS = {
    "const": Kind(1, 0, 0, lambda p: (), lambda p, s, u: (), lambda p, s: (p[0],)),
    "ramp": Kind(2, 0, 0, _initial, lambda p, s, u: (s[0] + p[1],), _shown),
    "counter": Kind(1, 0, 0, _zero, lambda p, s, u: ((s[0] + 1) % p[0],), _shown, lambda p: p[0] >= 1),
    "gain": Kind(1, 1, 1, _zero, lambda p, s, u: (scaled(p[0] * u[0]),), _shown),
    "sum": Kind(0, 1, 8, _zero, lambda p, s, u: (sum(u),), _shown),
    "integrator": Kind(2, 1, 1, _initial, lambda p, s, u: (s[0] + scaled(p[1] * u[0]),), _shown),
    "lag": Kind(2, 1, 1, _initial, lambda p, s, u: (s[0] + scaled(p[1] * (u[0] - s[0])),), _shown,
                lambda p: _is_share(p[1])),
    "delay": Kind(2, 1, 1, lambda p: (p[0],) * p[1], lambda p, s, u: s[1:] + (u[0],), lambda p, s: s[:1],
                  lambda p: 1 <= p[1] <= 64),
    "limiter": Kind(2, 1, 1, lambda p: (clipped(0, *p),), lambda p, s, u: (clipped(u[0], *p),), _shown,
                    lambda p: p[0] <= p[1]),
    "deadband": Kind(1, 1, 1, _zero, lambda p, s, u: (_deadband(p[0], u[0]),), _shown, lambda p: p[0] >= 0),
    "divider": Kind(1, 1, 1, _zero, lambda p, s, u: (_divided(p[0], u[0]),), _shown),
    "oscillator": Kind(4, 0, 0, lambda p: (p[0], p[1]), lambda p, s, u: _oscillator(p, s), _shown),
    "tank": Kind(3, 1, 1, _initial, lambda p, s, u: _tank(p, s, u[0]),
                 lambda p, s: (s[0], scaled(p[2] * s[0])), lambda p: p[0] >= 0 and _is_share(p[2])),
    "switch": Kind(1, 3, 3, _zero, lambda p, s, u: (u[1] if u[0] >= p[0] else u[2],), _shown),
}

# The kind of a model that is elsewhere: no step of it is computed here.
EXTERNAL, MOST_EXTERNAL_PARAMETERS, MOST_PORTS = "external", 64, 8

# How many outputs each kind has.
OUTPUTS = {word: 2 if word in ("oscillator", "tank") else 1 for word in KINDS}


def takes_parameters(kind, parameters):
    """Whether the kind takes these parameters."""
    if kind == EXTERNAL:
        return len(parameters) <= MOST_EXTERNAL_PARAMETERS
    row = KINDS[kind]
    return len(parameters) == row.parameters and row.takes(parameters)


def has_ports(kind, inputs, outputs):
    """Whether a model of the kind can have so many inputs and outputs."""
    if kind == EXTERNAL:
        return inputs <= MOST_PORTS and 1 <= outputs <= MOST_PORTS
    row = KINDS[kind]
    return row.least_inputs <= inputs <= row.most_inputs and outputs == OUTPUTS[kind]


class Model:
    """A model with its parameters and its state. Its outputs have types of their own."""

    def __init__(self, kind, parameters, output_types):
        if kind == EXTERNAL or not takes_parameters(kind, parameters) or len(output_types) != OUTPUTS[kind]:
            raise BadParameters()
        self.kind, self.parameters = kind, list(parameters)
        self.output_types = [TYPE_OF[word] for word in output_types]
        self.restart()

    def restart(self):
        """Begins anew with the parameters as they are."""
        self.state = KINDS[self.kind].first(self.parameters)

    def set(self, index, value):
        """Changes a parameter and begins anew. A refused value changes nothing."""
        changed = list(self.parameters)
        changed[index] = value
        if not takes_parameters(self.kind, changed):
            raise BadParameters()
        self.parameters = changed
        self.restart()

    def step(self, inputs, micro):
        """Goes on by so many micro steps on the same inputs. A fault leaves the state as it was."""
        state = self.state
        for _ in range(micro):
            state = KINDS[self.kind].step(self.parameters, state, inputs)
            if not all(INT64.holds(number) for number in state):
                raise ModelFault("MODEL_OVERFLOW")
        self._outputs_of(state)
        self.state = state

    def outputs(self):
        """What all outputs show. It is a fault where one does not fit its type."""
        return self._outputs_of(self.state)

    def output(self, port):
        """What one output shows."""
        return self._fitting(port, KINDS[self.kind].outputs(self.parameters, self.state)[port])

    def _outputs_of(self, state):
        values = KINDS[self.kind].outputs(self.parameters, state)
        return [self._fitting(port, value) for port, value in enumerate(values)]

    def _fitting(self, port, value):
        if not self.output_types[port].holds(value):
            raise ModelFault("OUT_OF_RANGE")
        return value

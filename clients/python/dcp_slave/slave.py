"""What a slave computes."""
import operator
from typing import Sequence

from .messages import Fault
from .scenario import Description


class ModelFault(Exception):
    """Raised by `Slave.start` or `Slave.step`: the model cannot go on. The master is told the fault, and the run fails.

    `fault` is OUT_OF_RANGE, DIVIDE_BY_ZERO or MODEL_OVERFLOW. Out of `start` it is told as OUT_OF_RANGE, the one fault
    that a slave can have there.
    """

    def __init__(self, fault: Fault = Fault.OUT_OF_RANGE):
        super().__init__(fault.name)
        self.fault = fault


class Slave:
    """The model of a slave. Derive from it, and define `start` and `step`.

    `description` is the slave's block of the scenario. `parameters` are the numbers behind its kind, as the master has
    set them since; read them in `start`, which is called behind all settings.
    """

    # Whether steps take long. Then `step` is called in a thread of its own, and the slave answers its master meanwhile.
    slow = False

    def __init__(self, description: Description):
        self.description = description
        self.parameters = list(description.parameters)

    def start(self) -> Sequence[int]:
        """Begins a run, from the first state. Gives the outputs before the first step, by port."""
        return [0] * len(self.description.outputs)

    def step(self, inputs: Sequence[int], micro: int) -> Sequence[int]:
        """Takes one step, of so many micro steps on the same inputs. Gives the outputs after it, by port.

        Inputs and outputs are whole numbers. An input that is not wired is 0. An output outside the type of its port is
        the fault OUT_OF_RANGE, an OverflowError MODEL_OVERFLOW, a ZeroDivisionError DIVIDE_BY_ZERO. Any other exception
        ends the slave.
        """
        raise NotImplementedError(f"{type(self).__name__} has no step")

    def accepts(self, index: int, value: int) -> bool:
        """Whether the parameter with this index may have this value. Else it is refused with VALUE_RANGE."""
        return True


def outputs_in_types(outputs: Sequence[int], description: Description) -> list:
    """The outputs as whole numbers. ModelFault where one lies outside its type; TypeError where they are no whole
    numbers, or are not as many as the description has."""
    if len(outputs) != len(description.outputs):
        raise TypeError(f"{description.name} gives {len(outputs)} outputs, and has {len(description.outputs)}")
    # (what is computed in floating point is rounded by the model, as it sees fit)
    values = [operator.index(value) for value in outputs]
    if not all(port.type.holds(value) for port, value in zip(description.outputs, values)):
        raise ModelFault(Fault.OUT_OF_RANGE)
    return values

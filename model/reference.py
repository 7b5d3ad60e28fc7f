"""The reference: what a correct run of a scenario prints. It knows no network and no states."""
from typing import NamedTuple

from .codes import FAULTS
from .kinds import Model, ModelFault


class ReferenceFault(NamedTuple):
    """Where the rows end: the least slave that faults, the run, the step and the code."""
    slave: int
    run: int
    step: int
    code: int

    def line(self):
        run = f" run {self.run}" if self.run > 1 else ""
        return f"fault slave {self.slave} step {self.step} code {self.code}{run}\n"


class _Fault(Exception):
    def __init__(self, slave, fault):
        super().__init__(slave, fault)
        self.slave, self.code = slave, FAULTS[fault.why]


def reference(scenario):
    """All rows of all runs, each as values by slave and port, and the fault that ends them or None."""
    rows = []
    for run in range(1, scenario.runs + 1):
        models = _models_of(scenario, run)
        earlier = []
        for step in range(scenario.steps + 1):
            try:
                if step > 0:
                    _step(scenario, models, earlier)
                earlier.append(_shown(models))
            except _Fault as fault:
                return rows, ReferenceFault(fault.slave, run, step, fault.code)
            rows.append([value for values in earlier[-1] for value in values])
    return rows, None


def _models_of(scenario, run):
    return [Model(slave.kind, scenario.parameters_of(number, run), slave.output_types())
            for number, slave in scenario.numbered()]


def _each(models, act):
    """What the act gives for each model; the least slave whose act faults is told once all have acted."""
    results, faults = [], []
    for number, model in enumerate(models, 1):
        try:
            results.append(act(number, model))
        except ModelFault as fault:
            faults.append(_Fault(number, fault))
    if faults:
        raise faults[0]
    return results


def _shown(models):
    """The outputs of all slaves."""
    return _each(models, lambda number, model: model.outputs())


def _step(scenario, models, earlier):
    """Steps all models at once, on rows before."""
    _each(models, lambda number, model: model.step(_inputs_of(scenario, number, earlier), scenario.micro))


def _inputs_of(scenario, number, earlier):
    """The inputs of a slave: what a wire carries is the newest row that the interval of its pair lets through."""
    values = [0] * len(scenario.slaves[number - 1].inputs)
    for wire in scenario.wires:
        if wire.target == number:
            interval = scenario.interval(wire.source, number)
            row = earlier[(len(earlier) - 1) // interval * interval]
            values[wire.into] = row[wire.source - 1][wire.out]
    return values

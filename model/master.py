"""The master, event by event."""
from typing import NamedTuple

from .codes import TYPE_OF
from .conversation import GOING, PASSED, TASKS, Cause, Conversation, Goal
from .messages import decode_or_none

_BEFORE_STEPS = ["Prepare", "Configure", "Initialize", "FirstOutputs", "Run"]


class Phase(NamedTuple):
    """A phase: its task, and the run and the step that it belongs to."""
    task: str
    run: int
    step: int


def phases_of(scenario):
    """All phases of a session, in order; the first is phase 1."""
    phases = [Phase("Register", 1, 0), Phase("Setup", 1, 0)]
    for run in range(1, scenario.runs + 1):
        phases += [Phase(task, run, 0) for task in _BEFORE_STEPS]
        for step in range(1, scenario.steps + 1):
            phases += [Phase("Step", run, step), Phase("Outputs", run, step)]
        phases.append(Phase("Stop", run, 0))
        if run < scenario.runs:
            phases += [Phase("Reset", run, 0), Phase("Adjust", run, 0)]
    return phases + [Phase("Deregister", scenario.runs, 0)]


class Report(NamedTuple):
    """How a session ended: after so many steps a run, or with the first slave that failed."""
    steps: int = None
    slave: int = None
    phase: int = None
    cause: Cause = None

    def has_failed(self):
        return self.cause is not None

    def line(self):
        if self.has_failed():
            return f"failed slave {self.slave} phase {self.phase} {self.cause.text()}\n"
        return f"finished {self.steps}\n"


class Master:
    """The master of a scenario. `outgoing` has what its last events made it send, each behind its address."""

    def __init__(self, scenario, plan):
        self.scenario, self.plan = scenario, plan
        self.address = scenario.master
        self.outgoing = []
        self.talks = {number: Conversation(number, scenario.limits) for number, _ in scenario.numbered()}
        self.phases = phases_of(scenario)
        self.phase = 0
        self.report = None
        self.turns = 0
        self.rows = []
        self.row = None

    def is_over(self):
        return self.report is not None

    def on_datagram(self, sender, data):
        """A datagram comes. It matters where a slave sent it and it is a message of one."""
        message = decode_or_none(data)
        if self.report or message is None:
            return
        for number, slave in self.scenario.numbered():
            if slave.address == sender:
                self.hear(number, message)
        self.count_row()

    def hear(self, number, message):
        """A message of a slave."""
        talk = self.talks[number]
        if message.is_answer():
            talk.on_answer(message)
        elif message.name == "NTF_state_changed" and message["sender"] == number:
            talk.on_hint()
        elif message.name == "DAT_input_output" and message["data_id"] == number:
            self.take_outputs(number, message)
        self.send_due(number)

    def take_outputs(self, number, message):
        """Takes the outputs of a slave into the row of the phase."""
        kinds = [TYPE_OF[word] for word in self.scenario.slaves[number - 1].output_types()]
        payload = message["payload"]
        if len(payload) != sum(kind.size for kind in kinds) or not self.talks[number].on_outputs(message["pdu_seq_id"]):
            return
        self.row[number], at = [], 0
        for kind in kinds:
            self.row[number].append(kind.read(payload[at:at + kind.size]))
            at += kind.size

    def send_due(self, number):
        talk = self.talks[number]
        if talk.due is not None:
            self.outgoing.append((self.scenario.slaves[number - 1].address, talk.due))
            talk.due = None

    def count_row(self):
        """Counts the row of the phase at the moment at which all slaves have passed it together."""
        if self.row is not None and all(talk.verdict == PASSED for talk in self.talks.values()):
            self.rows.append([value for number in sorted(self.row) for value in self.row[number]])
            self.row = None

    def on_turn(self):
        """A turn: each conversation has its own, and where all are settled the next phase begins."""
        if self.report:
            return
        self.turns += 1
        if self.phase > 0:
            someone_goes = any(talk.verdict == GOING for talk in self.talks.values())
            for number, talk in self.talks.items():
                talk.on_turn(someone_goes)
                self.send_due(number)
        if self.phase == 0 or self.is_settled():
            self.go_on()

    def is_settled(self):
        """Whether all have passed or ended, and none that passed waits for an answer."""
        return all(talk.has_ended() or talk.verdict == PASSED and not talk.open for talk in self.talks.values())

    def go_on(self):
        """Reports the least slave that failed, or the end, or begins the next phase."""
        for number, talk in self.talks.items():
            if talk.has_ended():
                self.report = Report(slave=number, phase=self.phase, cause=talk.verdict)
                return
        if self.phase == len(self.phases):
            self.report = Report(steps=self.scenario.steps)
        else:
            self.phase += 1
            self.begin_phase(self.phases[self.phase - 1])

    def begin_phase(self, phase):
        task = TASKS[phase.task]
        row = (phase.run - 1) * (self.scenario.steps + 1) + phase.step
        self.row = {} if task.has_row() else None
        for number, slave in self.scenario.numbered():
            goal = Goal(task, slave.uuid, phase.step, row, self.settings_of(phase, number))
            self.talks[number].begin(goal)
            self.send_due(number)

    def settings_of(self, phase, number):
        if phase.task == "Setup":
            return self.plan.setup(number)
        return self.plan.adjust(phase.run, number) if phase.task == "Adjust" else []

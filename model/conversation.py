"""A conversation: one slave as the master sees it."""
from typing import NamedTuple

from .codes import ERROR_STATES, REFUSALS, STATES
from .messages import LAYOUTS, Message, encode

GOING, PASSED = "Going", "Passed"


class Task(NamedTuple):
    """What a phase asks of each slave: its request with the state named, the passing state and the target."""
    name: str
    request: str
    named: str
    passing: str
    target: str

    def has_row(self):
        """Whether it needs the outputs of the slave."""
        return self.name in ("FirstOutputs", "Outputs")

    def has_settings(self):
        return self.name in ("Setup", "Adjust")


TASKS = {task.name: task for task in (
    Task("Register", "STC_register", "ALIVE", None, "CONFIGURATION"),
    Task("Setup", None, None, None, "CONFIGURATION"),
    Task("Prepare", "STC_prepare", "CONFIGURATION", "PREPARING", "PREPARED"),
    Task("Configure", "STC_configure", "PREPARED", "CONFIGURING", "CONFIGURED"),
    Task("Initialize", "STC_initialize", "CONFIGURED", "INITIALIZING", "INITIALIZED"),
    Task("FirstOutputs", "STC_send_outputs", "INITIALIZED", "SENDING_I", "CONFIGURED"),
    Task("Run", "STC_run", "CONFIGURED", "SYNCHRONIZING", "RUNNING"),
    Task("Step", "STC_do_step", "RUNNING", "COMPUTING", "COMPUTED"),
    Task("Outputs", "STC_send_outputs", "COMPUTED", "SENDING_D", "RUNNING"),
    Task("Stop", "STC_stop", "RUNNING", "STOPPING", "STOPPED"),
    Task("Reset", "STC_reset", "STOPPED", None, "CONFIGURATION"),
    Task("Adjust", None, None, None, "CONFIGURATION"),
    Task("Deregister", "STC_deregister", "STOPPED", None, None),
)}
# What requests carry behind the state that they name.
_CARRIED = {
    "STC_register": {"op_mode": 2, "major_version": 1, "minor_version": 0},
    "STC_run": {"start_time": 0},
    "STC_do_step": {"steps": 1},
}
# The kind of answer that a request has.
_ANSWERS = {"INF_state": "RSP_state_ack", "INF_error": "RSP_error_ack"}


class Goal(NamedTuple):
    """A task of one slave: its identity, the step, the row among those of all runs, and the settings."""
    task: Task
    uuid: int
    step: int
    row: int
    settings: list


class Cause(NamedTuple):
    """Why a conversation has ended, with what belongs to it."""
    word: str
    fields: dict

    def text(self):
        return " ".join([self.word] + [f"{name} {value}" for name, value in self.fields.items()])


class Conversation:
    """The talk with the slave of this number. `due` is what it has to send, in bytes, or None."""

    def __init__(self, number, limits):
        self.number, self.limits = number, limits
        self.next_number = 0
        self.goal = None
        self.verdict = GOING
        self.open = None
        self.open_number = self.open_bytes = None
        self.sendings = 0
        self.turns_open = self.turns_since_answer = self.turns_since_ack = 0
        self.waits_for = None
        self.hinted = self.asked_late = self.has_outputs = False
        self.refusals = self.settings_done = 0
        self.due = None

    def waits_for_answer(self):
        return self.open is not None

    def has_ended(self):
        return isinstance(self.verdict, Cause)

    def begin(self, goal):
        """Begins a task; the first request goes out at once."""
        self.goal, self.verdict = goal, GOING
        self.hinted = self.has_outputs = False
        self.refusals = self.settings_done = 0
        self.waits_for = None
        if not goal.task.has_settings():
            self.send_request()
        elif goal.settings:
            self.send_setting()
        else:
            self.verdict = PASSED

    def send(self, name, **fields):
        """Sends a new request, which is then the open one."""
        self.open, self.waits_for = name, None
        self.open_number = self.next_number
        self.next_number = (self.next_number + 1) % 65536
        self.open_bytes = encode(Message(name, pdu_seq_id=self.open_number, receiver=self.number, **fields))
        self.sendings, self.turns_open = 1, 0
        self.due = self.open_bytes

    def send_request(self):
        task = self.goal.task
        carried = dict(_CARRIED.get(task.request, {}))
        if task.name == "Register":
            carried["slave_uuid"] = self.goal.uuid
        self.send(task.request, state_id=task.named, **carried)

    def send_setting(self):
        setting = self.goal.settings[self.settings_done]
        self.send(setting.name, **setting.fields)

    def ask_state(self):
        """Asks for the state. What the slave has told of its changes before is then used up."""
        self.hinted = False
        self.asked_late = self.turns_since_ack >= self.limits["state_limit"]
        self.send("INF_state")

    def end(self, word, **fields):
        """Ends the conversation for good, for this cause."""
        self.verdict, self.waits_for = Cause(word, fields), None

    def on_answer(self, answer):
        """An answer comes. It counts where it is the slave's, to the open request."""
        if not self.open or answer["resp_seq_id"] != self.open_number or answer["sender"] != self.number:
            return
        request, self.open = self.open, None
        if self.has_ended():
            return
        self.turns_since_answer = 0
        if answer.name == "RSP_nack":
            self.on_refusal(request, answer["error_code"])
        elif answer.name != _ANSWERS.get(request, "RSP_ack"):
            self.unexpected(answer)
        elif request == "INF_state":
            self.on_state(answer)
        elif request == "INF_error":
            self.end("Faulted", seq=self.open_number, code=answer["error_code"])
        elif request.startswith("CFG_"):
            self.on_setting_done()
        else:
            self.on_acknowledgement()

    def on_refusal(self, request, code):
        """A refusal ends the conversation, but a step that wants inputs is asked for again."""
        if request != "STC_do_step" or code != REFUSALS["INPUTS_MISSING"]:
            self.end("Refused", seq=self.open_number, code=code)
            return
        self.refusals += 1
        if self.refusals >= self.limits["step_tries"]:
            self.end("InputsMissing", seq=self.open_number, step=self.goal.step)
        else:
            self.waits_for = "retry"

    def unexpected(self, answer):
        """An answer of another kind, or a state that is not awaited; 255 stands for no state."""
        is_state = answer.name == "RSP_state_ack"
        state = STATES.index(answer["state_id"]) if is_state else 255
        self.end("Unexpected", seq=self.open_number, type=LAYOUTS[answer.name].code, state=state)

    def on_setting_done(self):
        self.settings_done += 1
        if self.settings_done < len(self.goal.settings):
            self.send_setting()
        else:
            self.verdict = PASSED

    def on_acknowledgement(self):
        """The task is acknowledged: now its target is awaited. A deregister has none."""
        self.turns_since_ack = 0
        if self.goal.task.name == "Deregister":
            self.verdict = PASSED
        elif self.goal.task.passing is None or self.hinted:
            self.ask_state()
        else:
            self.waits_for = "state"

    def on_state(self, answer):
        """The slave names its state."""
        task, state = self.goal.task, answer["state_id"]
        if state in ERROR_STATES:
            self.send("INF_error")
        elif self.verdict == PASSED:
            if state != task.target:
                self.unexpected(answer)
        elif state == task.target:
            self.on_target()
        elif state == task.passing:
            self.on_passing(state)
        else:
            self.unexpected(answer)

    def on_target(self):
        if self.goal.task.has_row() and not self.has_outputs:
            self.waits_for = "data"
        else:
            self.verdict = PASSED

    def on_passing(self, state):
        if self.asked_late:
            self.end("Stuck", seq=self.open_number, state=STATES.index(state))
        elif self.hinted:
            self.ask_state()
        else:
            self.waits_for = "state"

    def on_hint(self):
        """The slave tells that its state has changed."""
        self.hinted = True
        if self.waits_for == "state":
            self.ask_state()

    def on_outputs(self, number):
        """Outputs come under this number. Whether they are those of the task's row, and the first of them."""
        if not self.goal or not self.goal.task.has_row() or self.has_outputs or number != self.goal.row % 65536:
            return False
        self.has_outputs = True
        if self.waits_for == "data":
            self.waits_for, self.verdict = None, PASSED
        return True

    def on_turn(self, someone_goes):
        """A turn, in which some conversation is still going or none."""
        if not self.goal or self.has_ended():
            return
        self.turns_since_answer += 1
        self.turns_since_ack += 1
        if self.open:
            self.send_again()
        elif self.waits_for:
            self.wait_on()
        elif self.verdict == PASSED and someone_goes and self.goal.task.name != "Deregister":
            # A slave that waits for others gives signs of life.
            if self.turns_since_answer >= self.limits["watch_turns"]:
                self.ask_state()

    def send_again(self):
        """Sends the open request again where it is time, or gives it up."""
        self.turns_open += 1
        if self.turns_open < self.limits["turn_limit"]:
            return
        if self.sendings >= self.limits["tries"]:
            self.end("NoAnswer", seq=self.open_number)
        else:
            self.sendings, self.turns_open = self.sendings + 1, 0
            self.due = self.open_bytes

    def wait_on(self):
        """Does what comes once enough turns were waited for the state, for a retry, or for the outputs."""
        limit = {"state": "watch_turns", "retry": "retry_turns", "data": "data_turns"}[self.waits_for]
        if self.turns_since_answer < self.limits[limit]:
            return
        if self.waits_for == "state":
            self.ask_state()
        elif self.waits_for == "retry":
            self.send_request()
        else:
            self.end("DataMissing", step=self.goal.step)

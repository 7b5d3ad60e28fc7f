"""A slave as its master sees it: numbers, states, refusals, and what each event makes it send."""
from concurrent.futures import Future, ThreadPoolExecutor
from typing import Optional

from . import logbook, messages
from .logbook import Logbook
from .messages import INT64, Address, Fault, Message, Refusal, State, read_message
from .scenario import Scenario
from .slave import ModelFault, Slave, outputs_in_types
from .wiring import Wiring

# The state to which a turn leads on from each passing state.
PASSING = {
    State.PREPARING: State.PREPARED, State.CONFIGURING: State.CONFIGURED, State.INITIALIZING: State.INITIALIZED,
    State.SENDING_I: State.CONFIGURED, State.SYNCHRONIZING: State.RUNNING, State.COMPUTING: State.COMPUTED,
    State.SENDING_D: State.RUNNING, State.STOPPING: State.STOPPED, State.ERROR_HANDLING: State.ERROR_RESOLVED,
}
# The state to which an accepted change of state leads at once, by its name and the state before.
CHANGES = {
    ("STC_prepare", State.CONFIGURATION): State.PREPARING,
    ("STC_configure", State.PREPARED): State.CONFIGURING,
    ("STC_initialize", State.CONFIGURED): State.INITIALIZING,
    ("STC_send_outputs", State.INITIALIZED): State.SENDING_I,
    ("STC_run", State.CONFIGURED): State.SYNCHRONIZING,
    ("STC_do_step", State.RUNNING): State.COMPUTING,
    ("STC_send_outputs", State.COMPUTED): State.SENDING_D,
    ("STC_stop", State.RUNNING): State.STOPPING,
    ("STC_stop", State.COMPUTED): State.STOPPING,
    ("STC_reset", State.STOPPED): State.CONFIGURATION,
}
IN_ERROR = (State.ERROR_HANDLING, State.ERROR_RESOLVED)
NOT_SUPPORTED = ("CFG_tunable_parameter", "CFG_param_network_information", "CFG_scope")
MOST_STEPS = 2**32 - 1
TURNS_AFTER_AN_ERROR = 1000


class Refused(Exception):
    """A request is refused for this cause."""

    def __init__(self, code: Refusal):
        super().__init__(code.name)
        self.code = code


def _want(holds: bool, code: Refusal) -> None:
    """Refuses the request for this cause where the condition does not hold."""
    if not holds:
        raise Refused(code)


class Device:
    """A slave of a scenario with its model. `on_datagram` and `on_turn` are its events; each gives what is then sent,
    in order, as pairs of an address and bytes."""

    def __init__(self, scenario: Scenario, slave: Slave):
        self.scenario, self.description, self.slave = scenario, scenario.description, slave
        self.state = State.ALIVE
        self.master: Optional[Address] = None
        self.id = 0
        self.expected = 0
        self.kept = b""
        self.has_ended = False
        self.quiet = self.steps = 0
        self.outputs: list = []
        self.has_sent_initial = False
        self.fault: Optional[Fault] = None
        self.wiring, self.log = Wiring(self.description), Logbook()
        self.outgoing: list = []
        self.threads = ThreadPoolExecutor(1) if slave.slow else None
        self.work: Optional[Future] = None

    def is_registered(self) -> bool:
        return self.master is not None and not self.has_ended

    def is_over(self) -> bool:
        """Whether its session has ended, or a fault is told and nothing was asked for long."""
        return self.has_ended or self.state == State.ERROR_RESOLVED and self.quiet >= TURNS_AFTER_AN_ERROR

    # Datagrams

    def on_datagram(self, sender: Address, data: bytes) -> list:
        """A datagram has come from this address."""
        message = read_message(data)
        if message is None:
            return []
        if message.name == "DAT_input_output":
            if self.is_registered() and State.PREPARED <= self.state <= State.SENDING_D:
                self.wiring.take_data(sender, message, self.steps)
        elif self.master is None:
            self._before_register(sender, message)
        elif (sender, message["receiver"]) == (self.master, self.id):
            self._place(message)
        return self._sends()

    def _sends(self) -> list:
        sends, self.outgoing = self.outgoing, []
        return sends

    def _send(self, data: bytes) -> None:
        self.outgoing.append((self.master, data))

    def _before_register(self, sender: Address, request: Message) -> None:
        """Begins the session with a register that is accepted. All else that is no register with number 0 is
        dropped."""
        number = request["pdu_seq_id"]
        if request.name != "STC_register" or number != 0:
            return
        code = self._refusal_of_register(request)
        if code:
            self.outgoing.append((sender, messages.nack(number, request["receiver"], 0, code)))
            return
        self.master, self.id = sender, request["receiver"]
        self.state, self.expected, self.quiet = State.CONFIGURATION, 1, 0
        self.kept = messages.ack(number, self.id)
        self._send(self.kept)

    def _refusal_of_register(self, request: Message) -> Optional[Refusal]:
        if request["state_id"] != State.ALIVE:
            return Refusal.WRONG_STATE
        if request["slave_uuid"] != self.description.identity:
            return Refusal.UUID_MISMATCH
        if (request["major_version"], request["minor_version"]) != (1, 0):
            return Refusal.VERSION
        return None if request["op_mode"] == 2 else Refusal.OP_MODE

    def _place(self, request: Message) -> None:
        """Takes a request of the master where it has the expected number. The last one is answered again; one further
        ahead is refused, and an old one dropped."""
        ahead = (request["pdu_seq_id"] - self.expected) % 65536
        if ahead == 65535:
            self._send(self.kept)
        elif self.has_ended or ahead >= 32768:
            return
        elif ahead:
            self._send(messages.nack(request["pdu_seq_id"], self.id, self.expected, Refusal.SEQUENCE))
        else:
            self._take(request)

    def _take(self, request: Message) -> None:
        """Answers the request, keeps the answer, and sends behind it what is to be told of its entries in the log."""
        number = request["pdu_seq_id"]
        self.expected, self.quiet = (number + 1) % 65536, 0
        notes: list = []
        try:
            self.kept = self._answer(request, notes)
        except Refused as refused:
            self.kept = messages.nack(number, self.id, self.expected, refused.code)
        self._send(self.kept)
        self._note(notes)

    def _answer(self, request: Message, notes: list) -> bytes:
        """Does what is asked for. The answer."""
        number = request["pdu_seq_id"]
        if request.name == "INF_state":
            return messages.state_ack(number, self.id, self.state)
        if request.name == "INF_error":
            return messages.error_ack(number, self.id, self.fault or 0)
        if request.name == "INF_log":
            _want(request["category"] in self.log.categories, Refusal.VALUE_RANGE)
            return messages.log_ack(number, self.id, self.log.fetch(request["category"], request["max_entries"]))
        if request.name.startswith("CFG_"):
            self._set(request)
        else:
            self._change(request, notes)
        return messages.ack(number, self.id)

    # Settings

    def _set(self, request: Message) -> None:
        _want(self.state not in IN_ERROR, Refusal.IN_ERROR_STATE)
        _want(request.name not in NOT_SUPPORTED, Refusal.NOT_SUPPORTED)
        _want(self.state == State.CONFIGURATION, Refusal.WRONG_STATE)
        if request.name == "CFG_parameter":
            self._set_parameter(request)
        elif request.name == "CFG_logging":
            is_set = self.log.configure(request["category"], request["level"], request["mode"])
            _want(is_set, Refusal.VALUE_RANGE)
        else:
            code = self.wiring.apply(request)
            if code:
                raise Refused(code)
            if request.name == "CFG_clear":
                self.slave.parameters[:] = self.description.parameters

    def _set_parameter(self, request: Message) -> None:
        _want(request["vr"] < len(self.slave.parameters), Refusal.UNKNOWN_VR)
        _want(request["type"] == INT64, Refusal.TYPE_MISMATCH)
        _want(self.slave.accepts(request["vr"], request["value"]), Refusal.VALUE_RANGE)
        self.slave.parameters[request["vr"]] = request["value"]

    # Changes of state

    def _change(self, request: Message, notes: list) -> None:
        after = self._state_after(request)
        if request.name == "STC_prepare":
            _want(self.wiring.is_complete(), Refusal.INCOMPLETE_CONFIG)
        elif request.name == "STC_run":
            _want(request["start_time"] == 0, Refusal.VALUE_RANGE)
        elif request.name == "STC_do_step":
            _want(request["steps"] == 1 and self.steps < MOST_STEPS, Refusal.BAD_STEPS)
            if not self.wiring.is_ready(self.steps):
                notes.append((logbook.STEPS, 2, Refusal.INPUTS_MISSING))
                raise Refused(Refusal.INPUTS_MISSING)
        elif request.name == "STC_reset":
            self.wiring.restart(self.steps)
            self.steps, self.has_sent_initial = 0, False
        elif request.name == "STC_deregister":
            self.has_ended = True
        self.state = after
        notes.append((logbook.STATES, 3, after))

    def _state_after(self, request: Message) -> State:
        """The state to which a change leads at once."""
        may_end = request.name == "STC_deregister" and self.state == State.ERROR_RESOLVED
        _want(self.state not in IN_ERROR or may_end, Refusal.IN_ERROR_STATE)
        _want(request["state_id"] == self.state, Refusal.WRONG_STATE)
        if request.name == "STC_deregister":
            _want(self.state not in PASSING, Refusal.WRONG_STATE)
            return State.ALIVE
        # The initial outputs of a run are sent once, and before it runs.
        _want(not (request.name == "STC_initialize" and self.has_sent_initial), Refusal.WRONG_STATE)
        _want(not (request.name == "STC_run" and not self.has_sent_initial), Refusal.WRONG_STATE)
        after = CHANGES.get((request.name, self.state))
        if after is None:
            raise Refused(Refusal.WRONG_STATE)
        return after

    # Turns

    def on_turn(self) -> list:
        """A turn: the state does what it is there for, and passes on."""
        if self.is_registered():
            self.quiet = min(self.quiet + 1, MOST_STEPS)
            if self._is_missed():
                self._fail(Fault.HEARTBEAT_MISSED)
            elif self.state in PASSING:
                self._pass_on()
        return self._sends()

    def _is_missed(self) -> bool:
        """Whether the slave has waited for its master for as many turns as its heartbeat has."""
        waits = self.state not in (State.STOPPED, *IN_ERROR)
        return waits and 0 < self.description.heartbeat <= self.quiet

    def _pass_on(self) -> None:
        notes: list = []
        try:
            if self._act(notes):
                self._reach(PASSING[self.state], notes)
        except ModelFault as fault:
            self._fail(Fault.OUT_OF_RANGE if self.state == State.INITIALIZING else fault.fault)

    def _act(self, notes: list) -> bool:
        """What a passing state does before it is left. Whether it is left now."""
        if self.state == State.INITIALIZING:
            self.outputs = outputs_in_types(_computed(self.slave.start), self.description)
        elif self.state == State.COMPUTING:
            outputs = self._stepped()
            if outputs is None:
                return False
            self.outputs = outputs_in_types(outputs, self.description)
            self.steps += 1
            notes.append((logbook.STEPS, 3, 0))
        elif self.state in (State.SENDING_I, State.SENDING_D):
            self.outgoing += self.wiring.data_due(self.steps, self.outputs)
            self.has_sent_initial = True
        return True

    def _stepped(self):
        """The outputs after the step, or None while a slow model takes it."""
        if self.threads is None:
            return _computed(self.slave.step, self.wiring.input_values(), self.scenario.micro)
        if self.work is None:
            self.work = self.threads.submit(self.slave.step, self.wiring.input_values(), self.scenario.micro)
        if not self.work.done():
            return None
        work, self.work = self.work, None
        return _computed(work.result)

    def _fail(self, fault: Fault) -> None:
        self.fault = fault
        self._reach(State.ERROR_HANDLING, [(logbook.FAULTS, 1, fault)])

    def _reach(self, state: State, notes: list) -> None:
        """Tells the master the state that is newly reached."""
        self.state = state
        self._send(messages.state_changed(self.id, state))
        self._note([*notes, (logbook.STATES, 2, state)])

    def _note(self, notes: list) -> None:
        """Notes entries of the log, each as its category, level and code, and sends those that are to be sent."""
        for category, level, code in notes:
            entry = self.log.note(category, level, code, self.steps)
            if entry:
                self._send(messages.log_notice(self.id, category, level, entry.sent_bytes()))


def _computed(call, *given):
    """What a call of the model gives. Faults of its arithmetic are faults of the model."""
    try:
        return call(*given)
    except ZeroDivisionError:
        raise ModelFault(Fault.DIVIDE_BY_ZERO) from None
    except OverflowError:
        raise ModelFault(Fault.MODEL_OVERFLOW) from None

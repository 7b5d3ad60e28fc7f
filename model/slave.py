"""A slave, event by event."""
from .codes import ERROR_STATES, FAULTS, INT64, REFUSALS, STATES
from .kinds import BadParameters, Model, ModelFault
from .messages import Message, decode_or_none, encode
from . import slave_log
from .slave_log import SlaveLog
from .wiring import Wiring

# The state to which a turn leads on from each passing state.
PASSING = {
    "PREPARING": "PREPARED", "CONFIGURING": "CONFIGURED", "INITIALIZING": "INITIALIZED", "SENDING_I": "CONFIGURED",
    "SYNCHRONIZING": "RUNNING", "COMPUTING": "COMPUTED", "SENDING_D": "RUNNING", "STOPPING": "STOPPED",
    "ERROR_HANDLING": "ERROR_RESOLVED",
}
# A change of state: the request, the states in which it is taken, and the state at once.
CHANGES = [
    ("STC_register", "ALIVE", "CONFIGURATION"),
    ("STC_prepare", "CONFIGURATION", "PREPARING"),
    ("STC_configure", "PREPARED", "CONFIGURING"),
    ("STC_initialize", "CONFIGURED", "INITIALIZING"),
    ("STC_send_outputs", "INITIALIZED", "SENDING_I"),
    ("STC_run", "CONFIGURED", "SYNCHRONIZING"),
    ("STC_do_step", "RUNNING", "COMPUTING"),
    ("STC_send_outputs", "COMPUTED", "SENDING_D"),
    ("STC_stop", "RUNNING", "STOPPING"),
    ("STC_stop", "COMPUTED", "STOPPING"),
    ("STC_reset", "STOPPED", "CONFIGURATION"),
]
HEARS_DATA = STATES[STATES.index("PREPARED"):STATES.index("SENDING_D") + 1]
UNKNOWN_SETTINGS = ("CFG_tunable_parameter", "CFG_param_network_information", "CFG_scope")
UINT32_MOST = 2**32 - 1
TURNS_AFTER_AN_ERROR = 1000


class RequestRefused(Exception):
    """A taken request is refused; `why` is the word of the cause."""

    def __init__(self, why):
        super().__init__(why)
        self.why = why


def refuse_unless(holds, why):
    """Refuses the request for this cause where the condition does not hold."""
    if not holds:
        raise RequestRefused(why)


def next_state(state, request, named, outputs_sent):
    """The state to which a change of state leads at once, where it names the state in which the slave is."""
    in_error = state in ERROR_STATES and (request, state) != ("STC_deregister", "ERROR_RESOLVED")
    refuse_unless(not in_error, "IN_ERROR_STATE")
    refuse_unless(named == state, "WRONG_STATE")
    if request == "STC_deregister":
        refuse_unless(state != "ALIVE" and state not in PASSING, "WRONG_STATE")
        return "ALIVE"
    # A run has its initial outputs sent once, before it runs.
    refuse_unless(not (request == "STC_initialize" and outputs_sent), "WRONG_STATE")
    refuse_unless(not (request == "STC_run" and not outputs_sent), "WRONG_STATE")
    found = [after for name, before, after in CHANGES if (name, before) == (request, state)]
    refuse_unless(found, "WRONG_STATE")
    return found[0]


def changed_state(slave, request):
    """The state that a change of state leads to, where its state, its configuration and its start let it."""
    after = next_state(slave.state, request.name, request["state_id"], slave.outputs_sent)
    if request.name == "STC_prepare":
        refuse_unless(slave.wiring.is_complete(), "INCOMPLETE_CONFIG")
    if request.name == "STC_run":
        refuse_unless(request["start_time"] == 0, "VALUE_RANGE")
    return after


def place(number, expected):
    """Where a request's number stands against the expected one."""
    ahead = (number - expected) % 65536
    if ahead == 0:
        return "next"
    if ahead == 65535:
        return "last"
    return "ahead" if ahead < 32768 else "old"


def refusal_of_register(request, description):
    """Why a slave that is not registered refuses a register, or None."""
    if request["state_id"] != "ALIVE":
        return "WRONG_STATE"
    if request["slave_uuid"] != description.uuid:
        return "UUID_MISMATCH"
    if (request["major_version"], request["minor_version"]) != (1, 0):
        return "VERSION"
    return "OP_MODE" if request["op_mode"] != 2 else None


def hears(slave, sender, message):
    """Whether a slave, registered or ended or neither, heeds this request from this address."""
    if not message.is_request():
        return False
    if slave.session == "none":
        return message.name == "STC_register" and message["pdu_seq_id"] == 0
    return sender == slave.master and message["receiver"] == slave.id


class Slave:
    """A slave of a description. `outgoing` has what its last events made it send, each behind its address."""

    def __init__(self, description, micro):
        self.description, self.micro = description, micro
        self.address = description.address
        self.outgoing = []
        self.session = "none"
        self.master = self.id = self.kept = None
        self.expected = 0
        self.state = "ALIVE"
        self.steps = self.busy_left = self.quiet = 0
        self.outputs_sent = False
        self.fault = None
        self.wiring, self.log = Wiring(description), SlaveLog()
        self.model = self.new_model()

    def new_model(self):
        """The model as the description has it."""
        return Model(self.description.kind, self.description.parameters, self.description.output_types())

    def is_over(self):
        """Whether the session has ended, or an error is over and nothing has been asked for long."""
        resolved = self.state == "ERROR_RESOLVED" and self.quiet >= TURNS_AFTER_AN_ERROR
        return self.session == "ended" or resolved

    def send(self, message):
        self.outgoing.append((self.master, encode(message)))

    def on_datagram(self, sender, data):
        """A datagram comes."""
        message = decode_or_none(data)
        if message is None:
            return
        if message.name == "DAT_input_output":
            if self.session == "open" and self.state in HEARS_DATA:
                self.wiring.take_data(sender, message, self.steps)
        elif hears(self, sender, message):
            if self.session == "none":
                self.register(sender, message)
            else:
                self.on_request(message)

    def register(self, sender, request):
        """Begins the session, or refuses to; the slave then stays as it was."""
        head = {"resp_seq_id": request["pdu_seq_id"], "sender": request["receiver"]}
        why = refusal_of_register(request, self.description)
        if why:
            nack = Message("RSP_nack", **head, exp_seq_id=0, error_code=REFUSALS[why])
            self.outgoing.append((sender, encode(nack)))
            return
        self.session, self.state = "open", "CONFIGURATION"
        self.master, self.id = sender, request["receiver"]
        self.expected = 1
        self.kept = Message("RSP_ack", **head)
        self.send(self.kept)

    def on_request(self, request):
        """A request of the master: once more, too early, too late, or the next one."""
        where = place(request["pdu_seq_id"], self.expected)
        if where == "last":
            self.send(self.kept)
        elif self.session == "ended" or where == "old":
            return
        elif where == "ahead":
            self.send(self.answer(request, "nack", exp_seq_id=self.expected, error_code=REFUSALS["SEQUENCE"]))
        else:
            self.take(request)

    def answer(self, request, kind, **fields):
        return Message(f"RSP_{kind}", resp_seq_id=request["pdu_seq_id"], sender=self.id, **fields)

    def take(self, request):
        """Answers the next request and keeps the answer. Then come what is noted of it."""
        self.expected = (self.expected + 1) % 65536
        self.quiet = 0
        notes = []
        try:
            self.kept = self.judge(request, notes)
        except RequestRefused as refused:
            code = REFUSALS[refused.why]
            self.kept = self.answer(request, "nack", exp_seq_id=self.expected, error_code=code)
        self.send(self.kept)
        self.note(notes)

    def judge(self, request, notes):
        """The answer of an accepted request, which is done with it."""
        if request.name == "INF_state":
            return self.answer(request, "state_ack", state_id=self.state)
        if request.name == "INF_error":
            return self.answer(request, "error_ack", error_code=self.fault or 0)
        if request.name == "INF_log":
            refuse_unless(request["category"] in self.log.categories, "VALUE_RANGE")
            entries = self.log.fetch(request["category"], request["max_entries"])
            return self.answer(request, "log_ack", entries=entries)
        if request.name.startswith("CFG_"):
            self.configure(request)
        else:
            self.change_state(request, notes)
        return self.answer(request, "ack")

    def configure(self, request):
        """A setting."""
        refuse_unless(self.state not in ERROR_STATES, "IN_ERROR_STATE")
        refuse_unless(request.name not in UNKNOWN_SETTINGS, "NOT_SUPPORTED")
        refuse_unless(self.state == "CONFIGURATION", "WRONG_STATE")
        if request.name == "CFG_parameter":
            self.set_parameter(request)
        elif request.name == "CFG_logging":
            taken = self.log.configure(request["category"], request["level"], request["mode"])
            refuse_unless(taken, "VALUE_RANGE")
        else:
            why = self.wiring.apply(request)
            refuse_unless(why is None, why)
            if request.name == "CFG_clear":
                self.model = self.new_model()

    def set_parameter(self, request):
        refuse_unless(request["vr"] < len(self.model.parameters), "UNKNOWN_VR")
        refuse_unless(request["type"] == INT64.word, "TYPE_MISMATCH")
        try:
            self.model.set(request["vr"], request["value"])
        except BadParameters:
            raise RequestRefused("VALUE_RANGE") from None

    def change_state(self, request, notes):
        """A change of state."""
        name = request.name
        after = changed_state(self, request)
        if name == "STC_do_step":
            self.begin_step(request, notes)
        if name == "STC_deregister":
            self.session = "ended"
        if name == "STC_reset":
            self.reset()
        self.state = after
        notes.append((slave_log.STATES, 3, STATES.index(after)))

    def begin_step(self, request, notes):
        refuse_unless(request["steps"] == 1 and self.steps < UINT32_MOST, "BAD_STEPS")
        if not self.wiring.is_ready(self.steps):
            notes.append((slave_log.STEPS, 2, REFUSALS["INPUTS_MISSING"]))
            raise RequestRefused("INPUTS_MISSING")
        self.busy_left = self.description.busy

    def reset(self):
        """Begins another run: parameters and wiring stay, and numbers go on."""
        self.wiring.restart(self.steps)
        self.model.restart()
        self.steps, self.outputs_sent = 0, False

    def on_turn(self):
        """A turn: the state does what it is there for, and passes on."""
        if self.session != "open":
            return
        self.quiet = min(self.quiet + 1, UINT32_MOST)
        if is_missed(self):
            self.end_turn("ERROR_HANDLING", [self.fail("HEARTBEAT_MISSED")])
        elif self.state == "COMPUTING" and self.busy_left:
            self.busy_left -= 1
        elif self.state in PASSING:
            notes = []
            try:
                self.act(notes)
                self.end_turn(PASSING[self.state], notes)
            except ModelFault as fault:
                self.end_turn("ERROR_HANDLING", [self.fail(fault.why)])

    def act(self, notes):
        """What the passing state does before it is left."""
        if self.state == "INITIALIZING":
            self.model.outputs()
        elif self.state == "COMPUTING":
            self.model.step(self.wiring.values, self.micro)
            self.steps += 1
            notes.append((slave_log.STEPS, 3, 0))
        elif self.state in ("SENDING_I", "SENDING_D"):
            for target, message in self.wiring.data_of(self.steps, self.model.outputs()):
                self.outgoing.append((target, encode(message)))
            self.outputs_sent = True

    def fail(self, why):
        """Takes the fault down; what is noted of it."""
        self.fault = FAULTS[why]
        return slave_log.FAULTS, 1, self.fault

    def end_turn(self, state, notes):
        """Tells the master the state that is newly reached."""
        self.state = state
        self.send(Message("NTF_state_changed", sender=self.id, state_id=state))
        self.note(notes + [(slave_log.STATES, 2, STATES.index(state))])

    def note(self, notes):
        """Notes entries, each with its category, level and code, and sends those that are to be sent."""
        for category, level, code in notes:
            entry = self.log.note(category, level, code, self.steps)
            if entry:
                self.send(Message("NTF_log", sender=self.id, category=category, level=level,
                                  text=slave_log.text_of(entry)))


def is_missed(slave):
    """Whether a slave has waited for its master for as many turns as its heartbeat has."""
    heartbeat = slave.description.heartbeat
    waits = slave.state != "STOPPED" and slave.state not in ERROR_STATES
    return heartbeat != 0 and slave.quiet >= heartbeat and waits

"""Whether the recorded entries of one slave are such that a slave of its description can have them.

Its model and its log are not known. So it is free in what a model decides: whether a step is done or takes more
turns or faults, which values it sends, whether it takes a parameter; and in whether it keeps a log. At all else it
has to do what the rules say.
"""
from typing import Callable, NamedTuple

from .codes import ERROR_STATES, FAULTS, INT64, REFUSALS
from .host import Got, Idle, Sent
from .messages import Message, decode_or_none, encode
from .slave import (HEARS_DATA, PASSING, UINT32_MOST, UNKNOWN_SETTINGS, RequestRefused, changed_state, hears,
                    is_missed, place, refusal_of_register, refuse_unless)
from .slave_log import FAULTS as LAST_CATEGORY
from .wiring import Wiring

MODEL_FAULTS = [FAULTS[word] for word in ("MODEL_OVERFLOW", "DIVIDE_BY_ZERO", "OUT_OF_RANGE")]


class Way(NamedTuple):
    """A way to go through an event: a test for each datagram that must be sent, and what is then the case.
    Where the log is on, any number of notices may follow."""
    tests: list
    then: Callable = lambda sent: None
    notices: bool = False


class Watched:
    """What is known of the slave after its entries so far."""

    def __init__(self, description):
        self.description, self.address = description, description.address
        self.session, self.state = "none", "ALIVE"
        self.master = self.id = self.kept = None
        self.expected = self.steps = self.quiet = 0
        self.outputs_sent = self.keeps_log = False
        self.possible_faults = None
        self.wiring = Wiring(description)

    def exactly(self, message, to=None):
        """A test for this message."""
        wanted = (to or self.master, encode(message))
        return lambda datagram: datagram == wanted

    def is_notice(self, datagram):
        """Whether the datagram tells the master of a log entry."""
        message = decode_or_none(datagram[1])
        return datagram[0] == self.master and message is not None and message.name == "NTF_log" and message["sender"] == self.id

    def silence(self):
        return [Way([], notices=self.keeps_log)]

    def ways_of_datagram(self, sender, data):
        """The ways to go through a datagram that comes."""
        message = decode_or_none(data)
        if message is None:
            return self.silence()
        if message.name == "DAT_input_output":
            if self.session == "open" and self.state in HEARS_DATA:
                self.wiring.take_data(sender, message, self.steps)
            return self.silence()
        if not hears(self, sender, message):
            return self.silence()
        if self.session == "none":
            return [self.way_of_register(sender, message)]
        where = place(message["pdu_seq_id"], self.expected)
        if where == "last":
            kept = (self.master, self.kept)
            return [Way([lambda datagram: datagram == kept], notices=self.keeps_log)]
        if self.session == "ended" or where == "old":
            return self.silence()
        if where == "ahead":
            return [Way([self.exactly(self.nack(message, "SEQUENCE", self.expected))], notices=self.keeps_log)]
        return self.ways_of_next(message)

    def way_of_register(self, sender, request):
        head = {"resp_seq_id": request["pdu_seq_id"], "sender": request["receiver"]}
        why = refusal_of_register(request, self.description)
        if why:
            nack = Message("RSP_nack", **head, exp_seq_id=0, error_code=REFUSALS[why])
            return Way([self.exactly(nack, sender)])

        def begin(sent):
            self.session, self.state = "open", "CONFIGURATION"
            self.master, self.id = sender, request["receiver"]
            self.expected, self.quiet, self.kept = 1, 0, sent[0][1]

        return Way([self.exactly(Message("RSP_ack", **head), sender)], begin)

    def answer(self, request, kind, **fields):
        return Message(f"RSP_{kind}", resp_seq_id=request["pdu_seq_id"], sender=self.id, **fields)

    def nack(self, request, why, expected):
        return self.answer(request, "nack", exp_seq_id=expected, error_code=REFUSALS[why])

    def ways_of_next(self, request):
        """The ways to answer the next request. Each keeps what was sent."""
        self.quiet = 0
        expected = (self.expected + 1) % 65536

        def way(test, effect=None, notices=self.keeps_log):
            def then(sent):
                self.expected, self.kept = expected, sent[0][1]
                if effect:
                    effect()
            return Way([test], then, notices)

        def refuse(why):
            return way(self.exactly(self.nack(request, why, expected)))

        try:
            return list(self.free_ways(request, way, refuse))
        except RequestRefused as refused:
            return [refuse(refused.why)]

    def free_ways(self, request, way, refuse):
        """The ways to accept the request, and those to refuse it that are free; the one refusal where there is
        no choice is raised."""
        if request.name == "INF_state":
            yield way(self.exactly(self.answer(request, "state_ack", state_id=self.state)))
        elif request.name == "INF_error":
            yield from self.ways_of_error(request, way)
        elif request.name == "INF_log":
            yield refuse("NOT_SUPPORTED")
            yield self.way_of_log(request, way, refuse)
        elif request.name.startswith("CFG_"):
            refuse_unless(self.state not in ERROR_STATES, "IN_ERROR_STATE")
            refuse_unless(request.name not in UNKNOWN_SETTINGS, "NOT_SUPPORTED")
            yield from self.ways_of_setting(request, way, refuse)
        else:
            effect = self.change_of(request)
            yield way(self.exactly(self.answer(request, "ack")), effect)

    def ways_of_error(self, request, way):
        """The code of the fault is free where several are possible, and is then known."""
        for code in self.possible_faults or [0]:
            def know(code=code):
                if self.possible_faults:
                    self.possible_faults = [code]
            yield way(self.exactly(self.answer(request, "error_ack", error_code=code)), know)

    def way_of_log(self, request, way, refuse):
        """The entries of a log are free."""
        if not 1 <= request["category"] <= LAST_CATEGORY:
            return refuse("VALUE_RANGE")
        master, head = self.master, encode(self.answer(request, "log_ack", entries=b""))
        return way(lambda datagram: datagram[0] == master and datagram[1][:len(head)] == head)

    def ways_of_setting(self, request, way, refuse):
        acknowledged = self.exactly(self.answer(request, "ack"))
        if request.name == "CFG_logging":
            yield refuse("NOT_SUPPORTED")
            if self.state != "CONFIGURATION":
                yield refuse("WRONG_STATE")
            elif request["category"] > LAST_CATEGORY or request["level"] > 3 or request["mode"] > 1:
                yield refuse("VALUE_RANGE")
            else:
                yield way(acknowledged, self.begin_log, True)
            return
        refuse_unless(self.state == "CONFIGURATION", "WRONG_STATE")
        if request.name == "CFG_parameter":
            refuse_unless(request["vr"] < len(self.description.parameters), "UNKNOWN_VR")
            refuse_unless(request["type"] == INT64.word, "TYPE_MISMATCH")
            yield refuse("VALUE_RANGE")
        else:
            why = self.wiring.apply(request)
            refuse_unless(why is None, why)
        yield way(acknowledged)

    def begin_log(self):
        self.keeps_log = True

    def change_of(self, request):
        """What an accepted change of state does."""
        name = request.name
        after = changed_state(self, request)
        if name == "STC_do_step":
            refuse_unless(request["steps"] == 1 and self.steps < UINT32_MOST, "BAD_STEPS")
            refuse_unless(self.wiring.is_ready(self.steps), "INPUTS_MISSING")

        def change():
            self.state = after
            if name == "STC_deregister":
                self.session = "ended"
            if name == "STC_reset":
                self.wiring.restart(self.steps)
                self.steps, self.outputs_sent = 0, False

        return change

    def ways_of_turn(self):
        """The ways to go through a turn."""
        if self.session != "open":
            return self.silence()
        self.quiet = min(self.quiet + 1, UINT32_MOST)
        if is_missed(self):
            return [self.way_to("ERROR_HANDLING", [], [FAULTS["HEARTBEAT_MISSED"]])]
        if self.state not in PASSING:
            return self.silence()
        ways = [self.way_to(PASSING[self.state], self.data_tests())]
        if self.state == "COMPUTING":
            ways += self.silence() + [self.way_to("ERROR_HANDLING", [], MODEL_FAULTS)]
        if self.state == "INITIALIZING":
            ways.append(self.way_to("ERROR_HANDLING", [], [FAULTS["OUT_OF_RANGE"]]))
        return ways

    def data_tests(self):
        """A test for each data message that this turn sends: all but the values is known."""
        if self.state not in ("SENDING_I", "SENDING_D"):
            return []
        messages = self.wiring.data_of(self.steps, [0] * len(self.description.outputs))
        return [data_test(target, encode(message)) for target, message in messages]

    def way_to(self, state, tests, faults=None):
        """The way of a turn that leads to this state, told behind the data."""
        def then(sent):
            if (self.state, state) == ("COMPUTING", "COMPUTED"):
                self.steps += 1
            if self.state == "SENDING_I":
                self.outputs_sent = True
            if faults:
                self.possible_faults = faults
            self.state = state
        told = Message("NTF_state_changed", sender=self.id, state_id=state)
        return Way(tests + [self.exactly(told)], then, self.keeps_log)


def data_test(target, wanted):
    """A test for a data message that is this one but for its payload's values."""
    head = wanted[:5]
    return lambda datagram: datagram[0] == target and datagram[1][:5] == head and len(datagram[1]) == len(wanted)


class Event:
    """An event of the slave while its datagrams are read."""

    def __init__(self, watched, ways):
        self.watched, self.ways, self.sent = watched, ways, []

    def take(self, datagram):
        """Whether the datagram may follow on those before it."""
        at = len(self.sent)
        self.ways = [way for way in self.ways if self.may_follow(way, at, datagram)]
        self.sent.append(datagram)
        return bool(self.ways)

    def may_follow(self, way, at, datagram):
        if at < len(way.tests):
            return way.tests[at](datagram)
        return way.notices and self.watched.is_notice(datagram)

    def end(self):
        """Whether nothing is missing; then the event has its effect."""
        for way in self.ways:
            if len(way.tests) <= len(self.sent):
                way.then(self.sent)
                return True
        return False


class Breaks(Exception):
    """The first entry, from 0, that the slave may not have, or at which something is missing."""

    def __init__(self, at, why):
        super().__init__(at, why)
        self.at, self.why = at, why


def conform(scenario, number, log):
    """How many events the entries of a slave have; Breaks where no slave of its description has them."""
    watched = Watched(scenario.slaves[number - 1])
    event, events = None, 0
    for at, entry in enumerate(log):
        if entry[0] != watched.address:
            continue
        if isinstance(entry, Sent):
            if event is None or not event.take(entry[1:]):
                raise Breaks(at, "SEND")
            continue
        if event and not event.end():
            raise Breaks(at, "MISSING")
        event = None
        if not isinstance(entry, Idle):
            events += 1
            is_datagram = isinstance(entry, Got)
            event = Event(watched, watched.ways_of_datagram(*entry[1:]) if is_datagram else watched.ways_of_turn())
    if event and not event.end():
        raise Breaks(len(log), "MISSING")
    return events

"""A slave on its way through all its states, with what came to it and what it sent."""
import pickle

from model.host import Got, Sent, Turn
from model.messages import LAYOUTS, decode, encode
from model.printed import print_message
from model.slave import PASSING, Slave
from model.texts import read_description

from .datagrams import MASTER, PEER, STRANGER, damaged, filled, overlong, to_others

INPUT_ID, INPUT_VR, OUTPUT_VR = 17, 1, 2
LATE = 12
BLOCK = """slave s{0}
uuid {0:032x}
address 127.0.0.1 {1}
model divider 1
busy 1
heartbeat 9
input 1 int32
output 2 int32
"""


def block_of(number):
    """The lines of the slave of this number."""
    return BLOCK.format(number, 9000 + number)


class Story:
    """A slave of the model, and its log. The data for its input come from the peer."""

    def __init__(self, number, peer):
        self.number, self.peer = number, peer
        self.description = read_description(block_of(number).encode())
        self.slave = Slave(self.description, 1)
        self.log = []

    def with_slave(self, slave, log):
        """The story with another slave of the same number."""
        made = object.__new__(Story)
        made.__dict__.update(self.__dict__, slave=slave, log=log)
        return made

    def copy(self):
        return self.with_slave(pickle.loads(snapshot(self.slave)), list(self.log))

    def gather(self, event):
        """Takes down an event that the slave has had, and what it sent at it."""
        self.log.append(event)
        self.log += [Sent(self.slave.address, to, data) for to, data in self.slave.outgoing]
        self.slave.outgoing = []

    def got(self, sender, data):
        self.slave.on_datagram(sender, data)
        self.gather(Got(self.slave.address, sender, data))

    def turn(self, count=1):
        for _ in range(count):
            self.slave.on_turn()
            self.gather(Turn(self.slave.address))

    def form(self, name, **known):
        """The message of this name in the form in which the slave would take it, if anywhere."""
        slave = self.slave
        own_id = slave.id or self.number
        last = (slave.expected - 1) % 65536
        return filled(name, **{
            "pdu_seq_id": self.data_number() if name == "DAT_input_output" else slave.expected, "receiver": own_id,
            "state_id": slave.state, "slave_uuid": self.description.uuid, "resp_seq_id": last, "sender": own_id,
            "exp_seq_id": slave.expected, "payload": (3 + slave.steps).to_bytes(4, "little"), **FORMS.get(name, {}), **known})

    def data_number(self):
        wired = self.slave.wiring.inputs.get(INPUT_ID)
        return wired.number(self.slave.steps) if wired else 0

    def ask(self, name, **known):
        """A request of the master that the slave has; of the master of all, where it has none."""
        self.got(self.slave.master or MASTER, encode(self.form(name, **known)))

    def tell_data(self, **known):
        self.got(self.peer, encode(self.form("DAT_input_output", **known)))

    def lines(self):
        """The story as a talk, and what is said in it."""
        events, said = [], []
        for entry in self.log:
            line = "turn\n" if isinstance(entry, Turn) else print_message(decode(entry.data))
            (said if isinstance(entry, Sent) else events).append(line)
        return (block_of(self.number) + "begin\n" + "".join(events)).encode(), "".join(said).encode()


# What the settings of a slave hold, and its data.
FORMS = {
    "CFG_input": {"data_id": INPUT_ID, "vr": INPUT_VR}, "CFG_source_network_information": {"data_id": INPUT_ID, "port": PEER[1]},
    "CFG_steps": {"data_id": INPUT_ID}, "CFG_output": {"vr": OUTPUT_VR}, "DAT_input_output": {"data_id": INPUT_ID},
    "CFG_logging": {"category": 0},
}


def settings(story):
    """The settings of the slave, one after the other."""
    yield "CFG_clear", {}
    yield "CFG_time_res", {}
    yield "CFG_parameter", {}
    yield "CFG_logging", {}
    yield "CFG_input", {}
    yield "CFG_source_network_information", {"port": story.peer[1]}
    yield "CFG_output", {}
    yield "CFG_target_network_information", {}


def begun(story, word):
    """From CONFIGURATION to RUNNING."""
    for name, state in (("STC_prepare", "PREPARING"), ("STC_configure", "CONFIGURING"), ("STC_initialize", "INITIALIZING")):
        story.ask(name)
        yield f"{state}{word}"
        story.turn()
        yield f"{story.slave.state}{word}"
    story.tell_data()
    story.ask("STC_send_outputs")
    yield f"SENDING_I{word}"
    story.turn()
    yield f"CONFIGURED, its first outputs sent{word}"
    story.ask("STC_run")
    yield f"SYNCHRONIZING{word}"
    story.turn()
    yield f"RUNNING{word}"


def walk(story):
    """Leads a slave through all its states, and tells each place at which it stands."""
    yield "not registered"
    story.ask("STC_register")
    yield "CONFIGURATION, nothing set"
    for name, known in settings(story):
        story.ask(name, **known)
    yield "CONFIGURATION, all set"
    yield from begun(story, "")
    story.ask("STC_do_step")
    yield "COMPUTING, busy"
    story.turn()
    yield "COMPUTING"
    story.turn()
    yield "COMPUTED"
    story.ask("STC_send_outputs")
    yield "SENDING_D"
    story.turn()
    yield "RUNNING, without its inputs"
    story.ask("STC_stop")
    yield "STOPPING"
    story.turn()
    yield "STOPPED"
    story.ask("STC_reset")
    yield "CONFIGURATION, after a reset"
    yield from begun(story, ", after a reset")
    # the next input is 0, by which the model divides
    story.ask("STC_do_step")
    story.turn(2)
    story.ask("STC_send_outputs")
    story.turn()
    story.tell_data(payload=bytes(4))
    story.ask("STC_do_step")
    story.turn(2)
    yield "ERROR_HANDLING"
    story.turn()
    yield "ERROR_RESOLVED"
    story.ask("STC_deregister")
    yield "ended"


def places():
    """The names of all places, in order."""
    return list(walk(Story(1, PEER)))


def story_at(place, number, peer):
    """A slave that stands at the place of this number."""
    story = Story(number, peer)
    for at, _ in enumerate(walk(story)):
        if at == place:
            return story
    raise IndexError(place)


def ask_all(story):
    """Asks for the state, the error and the log."""
    story.ask("INF_state")
    story.ask("INF_error")
    for category in (1, 2, 3):
        story.ask("INF_log", category=category, max_entries=64)


def finish(story):
    """What a master in order does from here to the end."""
    if story.slave.session == "none":
        ask_all(story)
        story.ask("STC_register")
    ask_all(story)
    asked = set()
    while story.slave.session == "open" and len(asked) < 40:
        name = next_request(story.slave, asked)
        asked.add((name, story.slave.steps, story.slave.state, len(asked) if name == "turn" else 0))
        if name == "turn":
            story.turn()
            continue
        if name == "STC_do_step":
            story.tell_data()
        story.ask(name)
    ask_all(story)
    story.ask("INF_state", pdu_seq_id=(story.slave.expected - 1) % 65536)


def next_request(slave, asked):
    """The next request of a master in order, or a turn. What was asked in vain is followed by the end."""
    if slave.state in PASSING:
        return "turn"
    name = {"CONFIGURATION": "STC_prepare", "PREPARED": "STC_configure", "INITIALIZED": "STC_send_outputs",
            "CONFIGURED": "STC_run" if slave.outputs_sent else "STC_initialize", "COMPUTED": "STC_send_outputs",
            "RUNNING": "STC_do_step" if slave.steps < 2 else "STC_stop"}.get(slave.state, "STC_deregister")
    before = {(it[0], it[1], it[2]) for it in asked}
    if (name, slave.steps, slave.state) not in before:
        return name
    return "STC_stop" if slave.state == "RUNNING" and name != "STC_stop" else "STC_deregister" if len(asked) % 2 else "turn"


def wait_long(story):
    """Turns enough for a heartbeat, and what is then said of it."""
    story.turn(LATE)
    ask_all(story)


def sender_of(name):
    """Who sends this message where all is in order."""
    return PEER if name == "DAT_input_output" else MASTER


def datagrams_for(story):
    """Each message in a form that fits, from its sender and from others, with another id, and damaged."""
    for name in LAYOUTS:
        message = story.form(name)
        data, home = encode(message), sender_of(name)
        for who, sender in (("master", MASTER), ("peer", PEER), ("stranger", STRANGER)):
            yield f"{name} of the {who}", sender, data
        for told, changed in (*to_others(message), *damaged(message)):
            yield told, home, changed
    for told, data in overlong():
        yield told, MASTER, data


def snapshot(slave):
    """All that a slave has."""
    return pickle.dumps(slave)

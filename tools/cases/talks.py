"""Random talks with one slave.

They are of two kinds: one request in a state that a slave can reach, and conversations in which numbers are
repeated, old or early, settings, data and questions come at any time, and runs are ended by resets. The model
goes along, so that a conversation goes on by what its slave expects.
"""
from model.codes import STATES, TYPE_OF, TYPES
from model.kinds import KINDS, OUTPUTS
from model.messages import Message, encode
from model.printed import print_message
from model.slave import CHANGES, PASSING, Slave
from model.talk import MASTER, read_talk, said_at

from .messages import message, some_bytes
from .scenarios import WORDS, changed, parameters

REGISTER, DEREGISTER, RESET = "STC_register", "STC_deregister", "STC_reset"
HERE = MASTER[0]
IDS = range(1, 40)


class Talk:
    """A conversation: its text so far, and the slave of the model at its end."""

    def __init__(self, rng, block):
        self.rng, self.block, self.lines = rng, block, []
        self.description = read_talk((block + "begin\n").encode())[0]
        self.slave = Slave(self.description, 1)
        self.id = rng.choice([1, 1, 7, 255])
        self.settings = None
        self.stopping = rng.choice([.02, .1, .3])
        self.mistakes = 0

    def text(self):
        return (self.block + "begin\n" + "".join(line + "\n" for line in self.lines)).encode()

    def turn(self, count=1):
        for _ in range(count):
            self.lines.append("turn")
            said_at(self.slave, None)

    def tell(self, told):
        """A message comes."""
        self.lines.append(print_message(told).rstrip("\n"))
        said_at(self.slave, encode(told))

    def ask(self, name, number=None, receiver=None, named=None, **fields):
        """A request, in the form in which it would be taken where nothing else is said."""
        head = {"pdu_seq_id": (self.slave.expected if number is None else number) % 65536,
                "receiver": self.id if receiver is None else receiver}
        if name.startswith("STC_"):
            head["state_id"] = self.slave.state if named is None else named
        self.tell(Message(name, **{**self.usual(name), **head, **fields}))

    def usual(self, name):
        """What a master in order says in a change of state."""
        return {
            REGISTER: {"slave_uuid": self.description.uuid, "op_mode": 2, "major_version": 1, "minor_version": 0},
            "STC_run": {"start_time": 0},
            "STC_do_step": {"steps": 1},
        }.get(name, {})


def description(rng):
    """The lines of a slave."""
    kind = rng.choice(list(KINDS))
    inputs = rng.randint(KINDS[kind].least_inputs, KINDS[kind].most_inputs)
    types = rng.choice([WORDS, ["int32", "int64"], ["int16", "uint8"]])
    values = parameters(rng, kind, rng.random() < .25)
    lines = ["slave s", f"uuid {rng.getrandbits(128):032x}", "address 127.0.0.1 9001",
             " ".join(["model", kind] + [str(it) for it in values])]
    lines += [f"busy {rng.randint(0, 3)}"] if rng.random() < .5 else []
    lines += [f"heartbeat {rng.choice([1, 3, 8, 20, 60])}"] if rng.random() < .35 else []
    lines += [f"resolution {rng.randint(1, 5)} {rng.randint(1, 2000)}"] if rng.random() < .3 else []
    for place, reference in enumerate(rng.sample(range(12), inputs + OUTPUTS[kind])):
        lines.append(f"{'input' if place < inputs else 'output'} {reference} {rng.choice(types)}")
    return "".join(line + "\n" for line in lines)


def address_of(rng):
    return {"protocol": rng.choice([0, 4]), "port": rng.choice([9000, 9000, 9005]), "ip": HERE}


def settings_of(talk):
    """Settings that wire a slave, in an order that it takes: each a name with its fields."""
    rng, numerator, denominator = talk.rng, *talk.description.resolution
    settings = [("CFG_clear", {})] if rng.random() < .5 else []
    settings.append(("CFG_time_res", {"numerator": numerator, "denominator": denominator}))
    if rng.random() < .4:
        settings.append(("CFG_logging", {"category": rng.randint(0, 3), "level": rng.randint(0, 3), "mode": rng.randint(0, 1)}))
    if rng.random() < .3 and talk.slave.model.parameters:
        index = rng.randrange(len(talk.slave.model.parameters))
        settings.append(("CFG_parameter", {"vr": index, "type": "int64", "value": rng.randint(-400, 400)}))
    ids = rng.sample(IDS, 3)
    return settings + inputs_of(talk, ids) + outputs_of(talk, ids)


def inputs_of(talk, ids):
    rng, settings, counts = talk.rng, [], {}
    ports = list(talk.description.inputs)
    rng.shuffle(ports)
    for port in ports[:len(ports) // 2] if rng.random() < .3 else ports:
        data_id = rng.choice(ids)
        position = counts[data_id] = counts.get(data_id, -1) + 1
        settings.append(("CFG_input", {"data_id": data_id, "pos": position, "vr": port.vr, "source_type": port.type}))
    for data_id in counts:
        network = {**address_of(rng), "port": MASTER[1]}
        settings.append(("CFG_source_network_information", {"data_id": data_id, **network}))
        settings += interval_of(rng, data_id)
    return settings


def outputs_of(talk, ids):
    rng, settings = talk.rng, []
    for data_id in dict.fromkeys(rng.sample(list(IDS) + ids, rng.choice([0, 1, 2, 3, 5, 17]))):
        for position in range(rng.choice([1, 1, 2, 3, 8])):
            vr = rng.choice(talk.description.outputs).vr
            settings.append(("CFG_output", {"data_id": data_id, "pos": position, "vr": vr}))
        settings.append(("CFG_target_network_information", {"data_id": data_id, **address_of(rng)}))
        settings += interval_of(rng, data_id)
    return settings


def interval_of(rng, data_id):
    return [("CFG_steps", {"data_id": data_id, "steps": rng.choice([1, 2, 3, 3, 5, 1000])})] if rng.random() < .5 else []


def tell_data(talk, wrong=None):
    """Data for each input id, or some that is wrong in its id, its number or its length."""
    rng, slave = talk.rng, talk.slave
    if not slave.wiring.inputs or wrong == "id":
        payload = some_bytes(rng, rng.choice([0, 1, 4, 8]))
        talk.tell(Message("DAT_input_output", pdu_seq_id=rng.randint(0, 9), data_id=rng.choice(IDS), payload=payload))
        return
    for data_id, wired in list(slave.wiring.inputs.items()):
        if wrong is None and rng.random() < .05:
            continue
        number, payload = wired.number(slave.steps), payload_of(talk, wired)
        if wrong == "number":
            number += rng.choice([-1, 1, 2, -2, 32768])
        if wrong == "length":
            payload = rng.choice([payload[1:], payload + b"\1"])
        talk.tell(Message("DAT_input_output", pdu_seq_id=number % 65536, data_id=data_id, payload=payload))


def payload_of(talk, wired):
    """Values for the ports of an input id, mostly small ones."""
    rng, pieces = talk.rng, []
    for port in wired.ports:
        value = rng.randint(0, 60) if rng.random() < .7 else rng.getrandbits(64)
        pieces.append(TYPE_OF[talk.description.inputs[port].type].spell(value))
    return b"".join(pieces)


def some_setting(talk):
    """A setting of the wiring, of an id that is wired or of any."""
    rng, wiring = talk.rng, talk.slave.wiring
    data_id = rng.choice(list(wiring.inputs) + list(wiring.outputs) + [rng.choice(IDS)])
    what = rng.choice(["time_res", "steps", "steps", "input", "input", "output", "output", "target", "source", "clear"])
    if what == "time_res":
        numerator, denominator = talk.description.resolution
        return "CFG_time_res", {"numerator": numerator + rng.choice([0, 0, 1]), "denominator": denominator}
    if what == "steps":
        return "CFG_steps", {"data_id": data_id, "steps": rng.choice([0, 1, 2, 3, 1000, 1001])}
    if what in ("input", "output"):
        return some_port(talk, what, data_id)
    if what == "clear" and rng.random() < .3:
        return "CFG_clear", {}
    network = {"protocol": rng.choice([0, 4, 0, 4, 1]), "port": rng.choice([9000, 9000, 9002]), "ip": HERE}
    return f"CFG_{'source' if what == 'source' else 'target'}_network_information", {"data_id": data_id, **network}


def some_port(talk, what, data_id):
    """A position of an id, mostly the next one."""
    rng, wiring = talk.rng, talk.slave.wiring
    is_input = what == "input"
    ports = talk.description.inputs if is_input else talk.description.outputs
    vr, kind = rng.choice(ports) if ports and rng.random() < .9 else (99, "uint8")
    wired = (wiring.inputs if is_input else wiring.outputs).get(data_id)
    fields = {"data_id": data_id, "pos": (len(wired.ports) if wired else 0) + rng.choice([0, 0, 0, 1]), "vr": vr}
    if is_input:
        fields["source_type"] = kind if rng.random() < .85 else rng.choice(WORDS)
    return f"CFG_{what}", fields


def some_change(rng):
    """A change of state; a session is seldom ended."""
    names = list(dict.fromkeys(name for name, _, _ in CHANGES if name != REGISTER))
    name = rng.choice(names + [RESET if rng.random() < .8 else DEREGISTER])
    if name == "STC_run":
        return name, {"start_time": rng.choice([0, 1, -1, 2**63 - 1])}
    if name == "STC_do_step":
        return name, {"steps": rng.choice([1, 1, 0, 2, 2**32 - 1])}
    return name, {}


def some_number(talk):
    """The number that is expected, and sometimes another."""
    rng, expected, chance = talk.rng, talk.slave.expected, talk.rng.random()
    if chance < .12:
        return expected - 1
    if chance < .17:
        return expected + rng.choice([1, 2, 100, 32767])
    return expected - rng.choice([2, 3, 100, 32768]) if chance < .22 else expected


def tell_noise(talk):
    """Something that a master in order would not send."""
    rng, chance = talk.rng, talk.rng.random()
    if chance < .80:
        to = {"number": some_number(talk), "receiver": talk.id if rng.random() < .95 else rng.randrange(256)}
        name, fields = some_request(talk, chance, to)
        talk.ask(name, **{**to, **fields})
    elif chance < .84:
        name = rng.choice(["CFG_tunable_parameter", "CFG_param_network_information", "CFG_scope"])
        talk.tell(Message(name, **{**message(rng, name).fields, "pdu_seq_id": talk.slave.expected, "receiver": talk.id}))
    elif chance < .87:
        some = message(rng)
        if some.name != DEREGISTER:
            talk.tell(some)
    elif chance < .97:
        tell_data(talk, rng.choice(["id", "number", "length", None, None]))
    else:
        talk.turn(rng.randint(2, 25))


def some_request(talk, chance, to):
    """A request with its fields, by the chance from 0 to .80."""
    rng, state = talk.rng, talk.slave.state
    if chance < .25:
        name, fields = some_change(rng)
        return name, {"named": state if rng.random() < .8 else rng.choice(STATES), **fields}
    if chance < .29:
        versions = {"op_mode": rng.choice([2, 2, 2, 1]), "major_version": rng.choice([1, 1, 2]), "minor_version": rng.choice([0, 0, 1])}
        uuid = talk.description.uuid if rng.random() < .8 else 5
        number, named = rng.choice([to["number"], 0]), rng.choice([state, *STATES[:2]])
        return REGISTER, {"number": number, "named": named, "slave_uuid": uuid, **versions}
    if chance < .40:
        return rng.choice(["INF_state", "INF_error"]), {}
    if chance < .50:
        return "INF_log", {"category": rng.choice([0, 1, 1, 2, 3, 3, 4, 255]), "max_entries": rng.choice([0, 1, 2, 5, 64, 255])}
    if chance < .58:
        levels = {"level": rng.choice([0, 1, 2, 3, 3, 4]), "mode": rng.choice([0, 0, 1, 1, 2])}
        return "CFG_logging", {"category": rng.choice([0, 0, 1, 2, 3, 4]), **levels}
    if chance < .63:
        odd = [("int64", rng.randint(-500, 70000)), ("int64", 0), ("int64", 1), ("int32", 3), ("uint64", 2**63 + 5), ("int64", -2**63)]
        kind, value = rng.choice(odd)
        return "CFG_parameter", {"vr": rng.randint(0, len(talk.slave.model.parameters)), "type": kind, "value": value}
    return some_setting(talk)


def go_forward(talk):
    """What a master in order would send next, or a turn."""
    rng, slave, state = talk.rng, talk.slave, talk.slave.state
    if slave.session == "ended":
        talk.ask("INF_state", number=slave.expected - rng.choice([0, 1]))
    elif slave.session == "none":
        talk.ask(REGISTER)
        talk.settings = settings_of(talk)
    elif state in PASSING:
        talk.turn()
    elif state == "CONFIGURATION":
        go_configure(talk)
    elif state == "RUNNING" and rng.random() >= talk.stopping:
        tell_data(talk)
        talk.ask("STC_do_step")
    elif state == "COMPUTED" and rng.random() >= talk.stopping / 2:
        talk.ask("STC_send_outputs")
    elif state in ("RUNNING", "COMPUTED"):
        talk.ask("STC_stop")
    elif state == "STOPPED":
        talk.settings = None
        talk.ask(RESET if rng.random() < .9 else DEREGISTER)
    elif state == "ERROR_RESOLVED":
        talk.mistakes += 1
        talk.ask(DEREGISTER if talk.mistakes > 6 else "INF_error")
    elif state == "CONFIGURED":
        talk.ask("STC_run" if slave.outputs_sent else "STC_initialize")
    else:
        talk.ask({"PREPARED": "STC_configure", "INITIALIZED": "STC_send_outputs"}[state])


def go_configure(talk):
    """The next setting, or the end of them. After a reset there may be new ones, or none."""
    rng = talk.rng
    if talk.settings is None and rng.random() < .5:
        talk.settings = settings_of(talk) if rng.random() < .6 else []
    if talk.settings:
        name, fields = talk.settings.pop(0)
        talk.ask(name, **fields)
    else:
        talk.ask("STC_prepare")


def conversation(rng):
    """A conversation in which a share of what comes is noise."""
    talk, noise = Talk(rng, description(rng)), rng.choice([.05, .2, .4, .7])
    for _ in range(rng.randint(1, 4) if rng.random() < .3 else 0):
        tell_noise(talk)
    for _ in range(rng.choice([20, 60, 150])):
        (tell_noise if rng.random() < noise else go_forward)(talk)
    return talk


COUNTER = """slave s
uuid 00000000-0000-0000-0000-000000000009
address 127.0.0.1 9001
model counter 5
busy 1
output 3 uint8
"""
NETWORK = {"protocol": 0, "port": 9000, "ip": HERE}

# A way through all states: what is asked, where None is a turn.
WAY = [(REGISTER, {}), ("CFG_time_res", {"numerator": 1, "denominator": 1000}),
       ("CFG_output", {"data_id": 4, "pos": 0, "vr": 3}), ("CFG_target_network_information", {"data_id": 4, **NETWORK}),
       ("STC_prepare", {}), None, ("STC_configure", {}), None, ("STC_initialize", {}), None, ("STC_send_outputs", {}), None,
       ("STC_run", {}), None, ("STC_do_step", {}), None, None, ("STC_send_outputs", {}), None, ("STC_stop", {}), None,
       (RESET, {}), (DEREGISTER, {})]

# Each request, in the form in which it is taken somewhere on this way.
REQUESTS = [(name, {}) for name in dict.fromkeys([name for name, _, _ in CHANGES] + [DEREGISTER])] + [
    ("CFG_clear", {}), ("INF_state", {}), ("INF_error", {}),
    ("CFG_time_res", {"numerator": 1, "denominator": 1000}), ("CFG_steps", {"data_id": 4, "steps": 2}),
    ("CFG_input", {"data_id": 5, "pos": 0, "vr": 1, "source_type": TYPES[0].word}),
    ("CFG_output", {"data_id": 6, "pos": 0, "vr": 3}), ("CFG_target_network_information", {"data_id": 6, **NETWORK}),
    ("CFG_source_network_information", {"data_id": 5, **NETWORK}), ("CFG_parameter", {"vr": 0, "type": "int64", "value": 6}),
    ("CFG_tunable_parameter", {"param_id": 1, "pos": 0, "vr": 3, "type": TYPES[0].word}),
    ("CFG_param_network_information", {"param_id": 1, **NETWORK}), ("CFG_logging", {"category": 0, "level": 3, "mode": 1}),
    ("CFG_scope", {"data_id": 4, "scope": 0}), ("INF_log", {"category": 1, "max_entries": 9})]


def one_request(rng):
    """A request somewhere on the way through the states, or after a fault; then a request under the same
    number, and a few turns."""
    place, request = rng.randrange(len(WAY) + 3), rng.choice(REQUESTS)
    faults = place > len(WAY)
    talk = Talk(rng, COUNTER + ("heartbeat 1\n" if faults else ""))
    for step in WAY[:1] if faults else WAY[:place]:
        go(talk, step)
    talk.turn(place - len(WAY) if faults else 0)
    number = talk.slave.expected
    go(talk, request)
    name, fields = request if request[0] != REGISTER else ("INF_state", {})
    talk.ask(name, number=number, **fields)
    talk.turn(3)
    return talk


def go(talk, step):
    if step is None:
        talk.turn()
    else:
        talk.ask(step[0], **step[1])


def talk(rng):
    """The text of a talk, seldom one with odd lines."""
    text = (one_request if rng.random() < .5 else conversation)(rng).text()
    return changed(rng, text) if rng.random() < .1 else text

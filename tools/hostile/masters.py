"""Datagrams to a master at every moment of a run, as traces of all ends.

The run goes on behind the datagram as the model has it, to the report. What has no effect, by the model, comes together.
"""
import pickle

from model.commands import call, printed
from model.host import Got, Host, Turn
from model.messages import LAYOUTS, encode
from model.texts import read_scenario
from model.traces import write_trace

from .datagrams import STRANGER, answers, damaged, filled, overlong, to_others
from .jobs import Job

TEXT = b"""steps 1
master 127.0.0.1 9000
turn_limit 8
tries 2
watch_turns 4
state_limit 8
retry_turns 2
data_turns 4
slave a
uuid 00000000-0000-0000-0000-000000000001
address 127.0.0.1 9001
model ramp 5 3
busy 1
output 1 int32
slave b
uuid 00000000-0000-0000-0000-000000000002
address 127.0.0.1 9002
model gain 131072
input 1 int32
output 2 int32
wire a 0 b 0
"""
SCENARIO = read_scenario(TEXT)
SLAVES = [slave.address for slave in SCENARIO.slaves]
# The code of data. Whoever sends them from a slave's address can change its rows.
DATA = 0xf0


def halves(host):
    """Goes through a run, half a round after the other: the master's look, and the rest."""
    while not host.master.report:
        yield "look"
        host.look(host.master)
        yield "rest"
        rest(host)


def rest(host):
    """A round behind the master's look. It ends where the master has its report."""
    for end in host.ends[1:]:
        host.look(end)
    for end in host.ends:
        host.log.append(Turn(end.address))
        end.on_turn()
        host.send_all(end)
        if host.master.report:
            return


def moments():
    """The run as it stands at each moment at which the master stands elsewhere than before, as bytes, and which half is next."""
    host, last, found = Host(SCENARIO), None, []
    for half in halves(host):
        place = whereabouts(host.master)
        if place != last:
            found.append((pickle.dumps(host), half))
        last = place
    return found


def whereabouts(master):
    """Where a master stands, without its counts of turns."""
    talks = [{name: value for name, value in vars(it).items() if not name.startswith("turns")} for it in master.talks.values()]
    return pickle.dumps((master.phase, master.report, master.row, talks))


def units():
    return [("masters", at) for at in range(len(moments()))]


def stand(master):
    """All that a master has that an event can change."""
    return pickle.dumps((master.phase, master.report, master.row, master.rows, master.turns, master.talks))


def datagrams_for(host):
    """Each message in a form that fits the open request, from the slave, from others, with another id, and damaged; and every
    answer to it."""
    master = host.master
    for number, slave in SCENARIO.numbered():
        talk = master.talks[number]
        asked = (talk.open_number or 0) % 65536
        row = talk.goal.row if talk.goal else 0
        known = {"resp_seq_id": asked, "sender": number, "receiver": number, "pdu_seq_id": row, "data_id": number,
                 "slave_uuid": slave.uuid, "state_id": talk.goal.task.target or "ALIVE" if talk.goal else "ALIVE"}
        other = SCENARIO.slaves[2 - number].address
        for told, message in answers(asked, number):
            yield f"{told} of slave {number}", slave.address, encode(message)
        for name in LAYOUTS:
            message = filled(name, **known)
            data = encode(message)
            for who, sender in (("", slave.address), (" of the other slave", other), (" of a stranger", STRANGER),
                                (" of the master", SCENARIO.master)):
                yield f"{name} for slave {number}{who}", sender, data
            for told, changed in (*to_others(message), *(damaged(message) if number == 1 or name[:3] in ("RSP", "DAT") else ())):
                yield f"{told}, slave {number}", slave.address, changed
    for told, data in overlong():
        yield told, SCENARIO.slaves[0].address, data


def jobs(number, sample):
    """The traces of a moment; and words, where the model says what the rules do not."""
    kept, half = moments()[number]
    host, reference, quiet = pickle.loads(kept), call(["reference"], TEXT).out, []
    before = stand(host.master)
    for told, sender, data in list(datagrams_for(host))[number % sample::sample]:
        words = f"master at moment {number}: {told}"
        host.log.append(Got(host.master.address, sender, data))
        host.master.on_datagram(sender, data)
        if not host.master.outgoing and stand(host.master) == before:
            quiet.append(host.log.pop())
            continue
        if sender not in SLAVES:
            yield f"{words}: by the model it has an effect"
        host.send_all(host.master)
        job = ended(words, host, half, 1)
        if job.status == 0 and job.out != reference and data[0] != DATA:
            yield f"{words}: by the model it changes the rows"
        yield job
        host = pickle.loads(kept)
    host.log += quiet
    job = ended(f"master at moment {number}: what has no effect", host, half, len(quiet))
    if job.out != reference:
        yield f"{job.words}: by the model it changes the rows"
    yield job


def ended(words, host, half, cases):
    """The trace of a run that goes on to its report."""
    if half == "look":
        host.look(host.master)
    if not host.master.report:
        rest(host)
    host.run()
    status, out = printed(host.master)
    return Job(words, ["replay"], write_trace(host.hosted, TEXT, host.log), status, out, cases)

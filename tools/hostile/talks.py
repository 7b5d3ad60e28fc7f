"""Every request in every state of a slave, naming every state, as talks; and every message as it is."""
from model.codes import STATES
from model.messages import LAYOUTS, encode

from .datagrams import MASTER, to_others
from .jobs import Job
from .stories import finish, places, snapshot, story_at

CHANGES = [name for name in LAYOUTS if name.startswith("STC_")]
# What every taken request changes.
COUNTS = "expected", "kept", "quiet"


def units():
    return [("talks", place) for place in range(len(places()))]


def machine(slave):
    """All that a slave has, but what every taken request changes."""
    kept = [getattr(slave, name) for name in COUNTS]
    for name in COUNTS:
        setattr(slave, name, None)
    taken = snapshot(slave)
    for name, value in zip(COUNTS, kept):
        setattr(slave, name, value)
    return taken


def jobs(place, sample):
    """The talks of a place. What is refused comes in one talk, and what is not in one of its own."""
    start = story_at(place, 1, MASTER)
    refused, count = start.copy(), 0
    for told, make in asked()[place % sample::sample]:
        story = start.copy()
        before = machine(story.slave)
        story.got(MASTER, make(story))
        if machine(story.slave) != before or not told.endswith("named"):
            yield talk(f"{places()[place]}: {told}", story, 1)
        else:
            refused.got(MASTER, make(refused))
            refused.ask("INF_state")
            count += 1
    yield talk(f"{places()[place]}: requests that are refused", refused, count)


def asked():
    """What is asked: words, and the datagram by the slave that it is for."""
    changes = [(f"{name}, {state} named", lambda story, name=name, state=state: encode(story.form(name, state_id=state)))
               for name in CHANGES for state in STATES]
    whole = [(name, lambda story, name=name: encode(story.form(name))) for name in LAYOUTS]
    others = [(f"{name} with another id", lambda story, name=name: next(to_others(story.form(name)))[1]) for name in LAYOUTS]
    return changes + whole + others


def talk(words, story, cases):
    finish(story)
    text, said = story.lines()
    return Job(words, ["talk"], text, 0, said, cases)

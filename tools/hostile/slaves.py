"""Datagrams to a slave in every state, as traces of slaves alone.

A datagram without effect, by the model, comes behind others at one place, and what comes after them shows that there was
none. Each other one has a slave of its own. Sixteen slaves go into one trace.
"""
import pickle
from typing import NamedTuple

from model.traces import write_trace

from .datagrams import PEER
from .jobs import Job
from .stories import block_of, datagrams_for, finish, places, snapshot, story_at, wait_long

SLAVES = 16
HOSTED = 2 ** (SLAVES + 1) - 2
HEAD = "steps 0\nmaster 127.0.0.1 9000\n"
DIFFERS = 8


class Told(NamedTuple):
    """The log of a slave, how many cases it stands for, and words for it."""
    words: str
    log: list
    cases: int


def units():
    return [("slaves", place) for place in range(len(places()))]


def jobs(place, sample):
    """The traces of a place."""
    name = places()[place]
    rooms = [story_at(place, number, PEER) for number in range(1, SLAVES + 1)]
    befores = [snapshot(story.slave) for story in rooms]
    tables = [list(datagrams_for(story))[place % sample::sample] for story in rooms]
    stories, quiet = [], []
    for at in range(len(tables[0])):
        number = len(stories) % SLAVES
        story, before = rooms[number], befores[number]
        told, sender, data = tables[number][at]
        length = len(story.log)
        story.got(sender, data)
        if len(story.log) == length + 1 and snapshot(story.slave) == before:
            story.log.pop()
            quiet.append(at)
            continue
        rooms[number] = story.with_slave(pickle.loads(before), story.log[:length])
        finish(story)
        stories.append(Told(f"{name}: {told}", story.log, 1))
    for after in (finish, wait_long):
        number = len(stories) % SLAVES
        story = rooms[number].copy()
        for at in quiet:
            story.got(*tables[number][at][1:])
        after(story)
        stories.append(Told(f"{name}: what has no effect", story.log, len(quiet) if after is finish else 0))
    for first in range(0, len(stories), SLAVES):
        yield packed(stories[first:first + SLAVES])


def packed(stories):
    """One trace of these stories, which differs nowhere and breaks off at its end."""
    log = [entry for story in stories for entry in story.log]
    text = (HEAD + "".join(block_of(number) for number in range(1, SLAVES + 1))).encode()
    return Job(f"slaves at {stories[0].words.partition(':')[0]}", ["replay"], write_trace(HOSTED, text, log), DIFFERS,
               f"unended {len(log)}\n".encode(), sum(it.cases for it in stories),
               [(it.words, packed([it])) for it in stories] if len(stories) > 1 else [])

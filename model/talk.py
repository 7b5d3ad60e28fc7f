"""Talks: one slave, and what comes to it line by line."""
from .messages import decode, encode
from .printed import parse_words, print_message
from .slave import Slave
from .texts import DescriptionReader, read_lines
from .words import Refused

MASTER = (0x7F000001, 9000)


class TalkReader:
    """What the lines of a talk have said so far. An event is None for a turn, or the bytes of a message."""

    def __init__(self):
        self.reader = DescriptionReader()
        self.description = None
        self.events = []

    def line(self, words):
        """Takes the words of a line, or refuses it."""
        if self.description:
            self.events.append(event_of(words))
        elif words[0] != "begin":
            self.reader.line(words)
        else:
            description = self.reader.end()
            if len(words) > 1:
                raise Refused("WORDS")
            self.description = description

    def end(self):
        """What has been read, or what is absent."""
        if not self.description:
            raise Refused("MISSING")
        return self.description, self.events


def event_of(words):
    """The event of a line."""
    if words[0] != "turn":
        return encode(parse_words(words))
    if len(words) > 1:
        raise Refused("WORDS")
    return None


def read_talk(text):
    """The description of a talk's slave, and the events."""
    return read_lines(text, TalkReader())


def said_at(slave, event):
    """The lines of what a slave sends at an event."""
    if event is None:
        slave.on_turn()
    else:
        slave.on_datagram(MASTER, event)
    lines = [print_message(decode(data)) for _, data in slave.outgoing]
    slave.outgoing = []
    return lines


def talk_lines(text):
    """All that the slave of a talk sends, one line each."""
    description, events = read_talk(text)
    slave = Slave(description, 1)
    return [line for event in events for line in said_at(slave, event)]

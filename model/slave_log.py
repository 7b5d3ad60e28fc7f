"""The log of a slave."""
import struct
from collections import deque
from typing import NamedTuple

STATES, STEPS, FAULTS = 1, 2, 3
MOST_KEPT = 64
LAST_NUMBER = 2**32 - 1


class Entry(NamedTuple):
    """A noted entry; `code` is a state's, a refusal's or a fault's, and `steps` are those of the slave then."""
    number: int
    category: int
    level: int
    code: int
    steps: int


class Category:
    """What is noted of one category, how, and what is kept of it."""

    def __init__(self):
        self.level = self.mode = self.number = 0
        self.kept = deque(maxlen=MOST_KEPT)


class SlaveLog:
    """The three categories. In mode 0 an entry is kept, in mode 1 it is sent."""

    def __init__(self):
        self.categories = {number: Category() for number in (STATES, STEPS, FAULTS)}

    def configure(self, category, level, mode):
        """Whether the setting is taken. Category 0 is all three."""
        if category > FAULTS or level > 3 or mode > 1:
            return False
        for number in [category] if category else self.categories:
            self.categories[number].level, self.categories[number].mode = level, mode
        return True

    def note(self, category, level, code, steps):
        """Notes an entry where its category's level lets it through. The entry, where it is to be sent."""
        here = self.categories[category]
        if level > here.level:
            return None
        entry = Entry(here.number, category, level, code, steps)
        here.number = min(here.number + 1, LAST_NUMBER)
        if here.mode == 1:
            return entry
        here.kept.append(entry)
        return None

    def fetch(self, category, most):
        """Takes out the bytes of the oldest kept entries."""
        kept = self.categories[category].kept
        return b"".join(struct.pack("<IBBBI", *kept.popleft()) for _ in range(min(most, len(kept))))


def text_of(entry):
    """The bytes of an entry that is sent, behind its category and level."""
    return struct.pack("<IBI", entry.number, entry.code, entry.steps)

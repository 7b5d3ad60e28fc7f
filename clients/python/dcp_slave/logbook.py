"""The log of a slave, which its master can ask for or have sent."""
import struct
from collections import deque
from typing import NamedTuple, Optional

STATES, STEPS, FAULTS = 1, 2, 3
MOST_LEVEL, MOST_MODE = 3, 1
MOST_KEPT = 64


class Entry(NamedTuple):
    """A noted entry: its number in its category, and the code of a state, a refusal or a fault; `steps` are those of
    the run, as they stand after what the entry tells."""
    number: int
    category: int
    level: int
    code: int
    steps: int

    def kept_bytes(self) -> bytes:
        """The entry as an answer has it."""
        return struct.pack("<IBBBI", *self)

    def sent_bytes(self) -> bytes:
        """The entry as a notice has it, behind its category and its level."""
        return struct.pack("<IBI", self.number, self.code, self.steps)


class Category:
    """The setting of one category, the number of its next entry, and the entries that are kept."""

    def __init__(self) -> None:
        self.level = self.mode = self.next_number = 0
        self.kept: deque = deque(maxlen=MOST_KEPT)


class Logbook:
    """The three categories. In mode 0 an entry is kept, in mode 1 it is sent."""

    def __init__(self) -> None:
        self.categories = {number: Category() for number in (STATES, STEPS, FAULTS)}

    def configure(self, category: int, level: int, mode: int) -> bool:
        """Sets a category, or all three by 0. Whether the numbers are ones that can be set; else nothing changes."""
        if category > FAULTS or level > MOST_LEVEL or mode > MOST_MODE:
            return False
        for number in [category] if category else self.categories:
            self.categories[number].level, self.categories[number].mode = level, mode
        return True

    def note(self, category: int, level: int, code: int, steps: int) -> Optional[Entry]:
        """Notes an entry where its level is noted. The entry, where it is to be sent."""
        here = self.categories[category]
        if level > here.level:
            return None
        entry = Entry(here.next_number, category, level, code, steps)
        here.next_number = min(here.next_number + 1, 2**32 - 1)
        if here.mode == 1:
            return entry
        here.kept.append(entry)
        return None

    def fetch(self, category: int, most: int) -> bytes:
        """Takes out the oldest kept entries, at most so many, as bytes."""
        kept = self.categories[category].kept
        return b"".join(kept.popleft().kept_bytes() for _ in range(min(most, len(kept))))

"""Where the tables stand: constants and lines in the sources of the tests."""
import functools
import pathlib
import re
from typing import NamedTuple

CRATES = pathlib.Path(__file__).resolve().parent.parent.parent / "crates"
_ESCAPES = {"\\n": "\n", "\\t": "\t", "\\\\": "\\", "\\0": "\0", '\\"': '"'}


class Table(NamedTuple):
    """A table: where it is, the rows that stand there, and the rows that the model makes of what they ask."""
    place: str
    rows: list
    made: list

    def different(self):
        """The rows that are not the model's, each with the model's."""
        rows, made = (them + [None] * (len(other) - len(them))
                      for them, other in ((self.rows, self.made), (self.made, self.rows)))
        return [pair for pair in zip(rows, made) if pair[0] != pair[1]]


@functools.lru_cache(maxsize=None)
def source(file):
    """The text of a file below crates/."""
    return (CRATES / file).read_text()


def literal(text):
    """What the inside of a literal stands for."""
    return re.sub(r"\\(x[0-9a-f]{2}|.)", lambda it: _ESCAPES.get(it[0]) or chr(int(it[0][2:], 16)), text, flags=re.S)


@functools.lru_cache(maxsize=None)
def constant(file, name):
    """The text of a constant of the tests, a table or a text."""
    found = re.search(rf'const {name}: &(?:str|\[u8\]) =\s*b?"(?:\\\n)?(.*?)(?<!\\)";', source(file), re.S)
    return literal(found[1])


def table(file, name, again):
    """A table in a constant, a row a line, of which `again` makes a row again."""
    rows = constant(file, name).split("\n")
    return Table(f"crates/{file}: {name}", rows, [again(row) for row in rows])


def camel(word):
    """A word in capitals as the program's enums spell it."""
    return "".join(part.capitalize() for part in word.split("_"))

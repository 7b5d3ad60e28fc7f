"""What a slave takes from the text of a scenario: its own description, and what its master does not tell it."""
import uuid
from typing import NamedTuple, Optional

from .messages import TYPE_OF, Address, Type


class ScenarioError(Exception):
    """The text is not the scenario of this slave. `./dcpctl reference` says more of what is wrong with a scenario."""


class Port(NamedTuple):
    """An input or an output: its value reference and its type."""
    vr: int
    type: Type


class Description(NamedTuple):
    """The block of one slave. `number` counts the slaves of the scenario from 1; `identity` has 16 bytes; `address` is
    the slave's own; `parameters` are the words behind the kind; `heartbeat` counts turns, 0 for none."""
    name: str
    number: int
    identity: bytes
    address: Address
    kind: str
    parameters: tuple
    inputs: tuple
    outputs: tuple
    resolution: tuple = (1, 1000)
    heartbeat: int = 0


class Scenario(NamedTuple):
    """A scenario as one slave sees it. `protocol` is udp or tcp, `micro` the micro steps of a step; a master sends a
    request `tries` times, and lets `turn_limit` of its turns pass each time."""
    text: bytes
    description: Description
    protocol: str = "udp"
    micro: int = 1
    tries: int = 4
    turn_limit: int = 50


def read_scenario(text: bytes, name: str) -> Scenario:
    """The scenario as the slave of this name sees it. ScenarioError where it has no such slave, or the slave's block
    lacks something or does not read. Lines of other slaves and links are not judged."""
    try:
        head, blocks = _sections(text.decode("utf-8"))
    except UnicodeDecodeError:
        raise ScenarioError("the scenario is not UTF-8") from None
    for number, block in enumerate(blocks, 1):
        if block[0][1][1:] == [name]:
            return Scenario(text, _description(name, number, block), **_limits(head))
    raise ScenarioError(f"the scenario has no slave {name}")


def _sections(text: str) -> tuple:
    """The lines of the head, and those of each slave, as their numbers and words."""
    head, blocks = [], []
    for number, line in enumerate(text.split("\n"), 1):
        words = line.split()
        if not words or words[0].startswith("#"):
            continue
        if words[0] == "slave":
            blocks.append([])
        (blocks[-1] if blocks else head).append((number, words))
    return head, blocks


def _limits(head: list) -> dict:
    """What the head says of the fields of a scenario."""
    found = {}
    for number, words in head:
        if words[0] == "protocol" and words[1:] in (["udp"], ["tcp"]):
            found["protocol"] = words[1]
        elif words[0] in ("micro", "tries", "turn_limit"):
            found[words[0]] = _number(number, words, 1)
    return found


def _number(line: int, words: list, place: int) -> int:
    try:
        return int(words[place])
    except (IndexError, ValueError):
        raise ScenarioError(f"line {line}: {words[0]} wants a number") from None


def _description(name: str, number: int, block: list) -> Description:
    fields = {"inputs": (), "outputs": ()}
    for line, words in block:
        _read_line(line, words, fields)
    wanted = {"uuid": "identity", "address": "address", "model": "kind"}
    missing = [key for key, field in wanted.items() if field not in fields]
    if missing or not fields["outputs"]:
        raise ScenarioError(f"the block of {name} has no {(missing or ['output'])[0]}")
    return Description(name, number, **fields)


def _read_line(line: int, words: list, fields: dict) -> None:
    """Takes one line of a block into the fields of a description."""
    key = words[0]
    if key == "uuid":
        fields["identity"] = _identity(line, words)
    elif key == "address":
        fields["address"] = (_ip(line, words), _number(line, words, 2))
    elif key == "model":
        fields["kind"], fields["parameters"] = words[1], tuple(_number(line, words, at) for at in range(2, len(words)))
    elif key == "heartbeat":
        fields["heartbeat"] = _number(line, words, 1)
    elif key == "resolution":
        fields["resolution"] = (_number(line, words, 1), _number(line, words, 2))
    elif key in ("input", "output"):
        fields[key + "s"] += (Port(_number(line, words, 1), _type(line, words)),)


def _ip(line: int, words: list) -> str:
    parts = words[1].split(".") if len(words) > 1 else []
    if len(parts) != 4 or not all(part.isdecimal() and int(part) < 256 for part in parts):
        raise ScenarioError(f"line {line}: no address as 127.0.0.1")
    return ".".join(str(int(part)) for part in parts)


def _identity(line: int, words: list) -> bytes:
    try:
        return uuid.UUID(words[1]).bytes
    except (IndexError, ValueError):
        raise ScenarioError(f"line {line}: no identity") from None


def _type(line: int, words: list) -> Type:
    found: Optional[Type] = TYPE_OF.get(words[2]) if len(words) == 3 else None
    if found is None:
        raise ScenarioError(f"line {line}: no type of this name")
    return found

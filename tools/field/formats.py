"""The tables of docs/FORMATS.md: the layouts of messages, the words of codes, and the sentences of reasons.

The page is the one source: a message or a reason that is added to it needs no second edit.
"""
import pathlib
import re
import struct
import uuid
from typing import NamedTuple, Optional

PAGE = pathlib.Path(__file__).resolve().parent.parent.parent / "docs" / "FORMATS.md"
MOST_BYTES = 1024
WIDTHS = {"u8": 1, "u16": 2, "u32": 4, "u64": 8, "i64": 8, "state": 1, "type": 1, "uuid": 16, "ip": 4}


class Layout(NamedTuple):
    """How a message is spelled: its type code, its name, and each field behind the code with its kind."""
    code: int
    name: str
    fields: list


class Formats(NamedTuple):
    """The tables: layouts by code, states, refusals, faults and types by code, and sentences by reason."""
    layouts: dict
    states: dict
    refusals: dict
    faults: dict
    types: dict
    reasons: dict


def read_formats(page: pathlib.Path = PAGE) -> Formats:
    """The tables of the page. ValueError where one of them is not found."""
    text = page.read_text(encoding="utf-8")
    tables = Formats(_layouts(text), _states(text), _refusals(text), _faults(text), _types(text), _reasons(text))
    for name, table in tables._asdict().items():
        if not table:
            raise ValueError(f"{page}: no table of {name}")
    return tables


def section_of(text: str, title: str) -> str:
    """What stands under a title, up to the next one."""
    found = re.search(rf"^#+ {re.escape(title)}\n(.*?)(?=^#|\Z)", text, re.M | re.S)
    return found[1] if found else ""


def rows_of(text: str) -> list:
    """The rows of all tables in a text, each as its cells. Lines under heads are left out."""
    lines = [line for line in text.split("\n") if line.startswith("|")]
    rows = [[cell.strip() for cell in line.strip().strip("|").split("|")] for line in lines]
    return [row for row in rows if not set("".join(row)) <= set("-: ")]


def _layouts(text: str) -> dict:
    by_name, by_code = {}, {}
    for row in rows_of(section_of(text, "Messages as bytes")):
        if len(row) == 4 and re.fullmatch(r"[0-9a-f]{2}", row[0]):
            code, name, fields, _ = row
            like = re.fullmatch(r"as (\w+)", fields)
            by_name[name] = by_name[like[1]] if like else [tuple(field.split()) for field in fields.split(", ")]
            by_code[int(code, 16)] = Layout(int(code, 16), name, by_name[name])
    return by_code


def _pairs(rows: list, pattern: str, base: int) -> dict:
    """Words by their codes, of rows in which a cell with a code stands before one with its word."""
    found = {}
    for row in rows:
        for code, word in zip(row[::2], row[1::2]):
            if re.fullmatch(pattern, code) and re.fullmatch(r"[A-Z_]+", word):
                found[int(code, base)] = word
    return found


def _states(text: str) -> dict:
    return _pairs(rows_of(section_of(text, "Codes").split("Refusal of a request")[0]), r"[01][0-9a-f]", 16)


def _refusals(text: str) -> dict:
    rows = rows_of(section_of(text, "Codes"))
    heads = [at for at, row in enumerate(rows) if "Refusal of a request" in row]
    return _pairs(rows[heads[0]:], r"[0-9]+", 10) if heads else {}


def _faults(text: str) -> dict:
    found = re.search(r"Faults of a slave: ([^;]+);", section_of(text, "Codes"))
    return {int(code): word for code, word in re.findall(r"(\d+) ([A-Z_]+)", found[1])} if found else {}


def _types(text: str) -> dict:
    found = {}
    for row in rows_of(section_of(text, "Codes")):
        if row[0] in ("unsigned", "signed"):
            found.update(zip(map(int, row[2].split(", ")), re.findall(r"`(\w+)`", row[1])))
    return found


def _reasons(text: str) -> dict:
    rows = rows_of(section_of(text, "What the reasons mean"))
    return {row[0]: row[1] for row in rows if re.fullmatch(r"[A-Z_0-9]+", row[0])}


def line_of(data: bytes, formats: Formats) -> Optional[str]:
    """The printed form of a message, without a line feed, or None where the bytes are no message."""
    layout = formats.layouts.get(data[0]) if 0 < len(data) <= MOST_BYTES else None
    if layout is None:
        return None
    words, at, value_type = [layout.name], 1, 0
    for field, kind in layout.fields:
        width = 1 << value_type % 4 if kind == "value" else WIDTHS.get(kind, len(data) - at)
        piece = data[at:at + width]
        at += width
        shown = _shown(kind, piece, value_type, formats) if len(piece) == width else None
        if shown is None:
            return None
        value_type = piece[0] if kind == "type" else value_type
        words.append(f"{field}={shown}")
    return " ".join(words) if at == len(data) else None


def _shown(kind: str, piece: bytes, value_type: int, formats: Formats) -> Optional[str]:
    """What a field holds, as the printed form has it, or None where its kind does not."""
    if kind == "rest":
        return piece.hex()
    if kind == "uuid":
        return str(uuid.UUID(bytes=bytes(piece)))
    if kind == "ip":
        return ".".join(map(str, reversed(piece)))
    if kind == "state":
        return formats.states.get(piece[0])
    if kind == "type":
        return str(piece[0]) if piece[0] in formats.types else None
    signed = kind == "i64" or kind == "value" and value_type > 3
    return str(int.from_bytes(piece, "little", signed=signed))


def address_of(six: bytes) -> tuple:
    """An address of six bytes as its dotted ip and its port."""
    ip, port = six[:4], struct.unpack("<H", six[4:])[0]
    return ".".join(map(str, reversed(ip))), port

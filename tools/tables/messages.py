"""The table of messages: lines with their bytes, and bytes with their line or where they are refused."""
from model.messages import BytesRefused, decode, encode
from model.printed import parse_text, print_message
from model.words import Refused

from .source import camel, table


def tables():
    yield table("part_tests/src/messages.rt", "ROWS", again)


def again(row):
    asked = row.split("|")[0]
    if asked.startswith("#"):
        return f"{asked}|{bytes_answer(bytes.fromhex(asked[1:]))}"
    text = asked.replace(";", "\n").replace("^", "\r").encode().replace(b"~", b"\xff")
    return f"{asked}|{line_answer(text)} true"


def line_answer(text):
    """The bytes of a line's message, or the first rule that it breaks."""
    try:
        return encode(parse_text(text)).hex()
    except Refused as refused:
        return refused.why


def bytes_answer(data):
    """How many of the bytes are a message at least, and the line; or where they are refused, and why."""
    try:
        line = print_message(decode(data)).rstrip("\n")
    except BytesRefused as refused:
        return f"{refused.at} {camel(refused.why)}"
    return f"Some({sum(not is_message(data[:count]) for count in range(len(data)))}) true {line}"


def is_message(data):
    try:
        decode(data)
        return True
    except BytesRefused:
        return False

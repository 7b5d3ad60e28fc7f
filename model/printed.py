"""Messages as lines."""
from .codes import STATES, TYPE_OF, TYPES
from .messages import LAYOUTS, MOST_BYTES, RANGES, Message, size_of
from .words import Refused, bytes_of, ip_of, number_of, print_ip, print_uuid, split_lines, split_words, uuid_of


def print_message(message):
    """The line of a message, with its line feed."""
    cells = [f"{name}={_print_field(kind, message[name])}" for name, kind in LAYOUTS[message.name].fields]
    return " ".join([message.name] + cells) + "\n"


def _print_field(kind, value):
    if kind == "uuid":
        return print_uuid(value)
    if kind == "ip":
        return print_ip(value)
    if kind == "rest":
        return value.hex()
    if kind == "type":
        return str(TYPE_OF[value].code)
    return str(value)


def parse_words(words):
    """The message whose name and fields the words are. They are judged one by one from the left."""
    if not words:
        raise Refused("WORDS")
    layout = LAYOUTS.get(words[0])
    if layout is None:
        raise Refused("UNKNOWN_KEY")
    fields, size, rest = {}, 1, list(words[1:])
    for name, kind in layout.fields:
        if not rest:
            raise Refused("WORDS")
        key, equals, text = rest.pop(0).partition("=")
        if key + equals != name + "=":
            raise Refused("UNKNOWN_KEY")
        fields[name] = _parse_field(kind, fields, text)
        size += len(fields[name]) if kind == "rest" else size_of(kind, fields)
        if size > MOST_BYTES:
            raise Refused("LIMIT")
    if rest:
        raise Refused("WORDS")
    return Message(layout.name, **fields)


def _parse_field(kind, fields, text):
    if kind == "uuid":
        return uuid_of(text)
    if kind == "ip":
        return ip_of(text)
    if kind == "rest":
        return bytes_of(text)
    if kind == "state":
        if text not in STATES:
            raise Refused("BAD_NUMBER")
        return text
    if kind == "value":
        data_type = TYPE_OF[fields["type"]]
        return number_of(text, data_type.low, data_type.high, signed=data_type.low < 0)
    number = number_of(text, *RANGES[kind], signed=kind == "i64")
    return TYPES[number].word if kind == "type" else number


def parse_text(text):
    """The message of a text whose first line it is, and whose further lines have no words."""
    try:
        text.decode("utf-8")
    except UnicodeDecodeError:
        raise Refused("NOT_UTF8") from None
    first, *others = [split_words(line.decode("utf-8")) for line in split_lines(text)] or [[]]
    message = parse_words(first)
    if any(others):
        raise Refused("WORDS")
    return message

"""What all texts share: lines, words, and what a word can be."""
import re

_NUMBER = re.compile(r"[0-9]{1,20}\Z")
_SIGNED = re.compile(r"-?[0-9]{1,20}\Z")
_NAME = re.compile(r"[A-Za-z][A-Za-z0-9_-]{0,31}\Z")
_PLAIN_UUID = re.compile(r"[0-9a-fA-F]{32}\Z")
_HYPHENATED_UUID = re.compile(r"[0-9a-fA-F]{8}(-[0-9a-fA-F]{4}){3}-[0-9a-fA-F]{12}\Z")
_HEXADECIMAL = re.compile(r"([0-9a-fA-F]{2})*\Z")


class Refused(Exception):
    """A line, or a word of it, is refused, and why."""

    def __init__(self, why):
        super().__init__(why)
        self.why = why


class TextRefused(Exception):
    """A text is refused: the first line that is wrong, from 1 on, and why."""

    def __init__(self, line, why):
        super().__init__(line, why)
        self.line, self.why = line, why


def split_lines(text):
    """The lines of a text, all in bytes. A line feed ends a line, and one carriage return before it is
    dropped; a last line without line feed keeps its own."""
    *ended, last = text.split(b"\n")
    lines = [line[:-1] if line.endswith(b"\r") else line for line in ended]
    return lines + [last] if last else lines


def split_words(line):
    """The words of a line. Spaces and tabs alone separate them."""
    return [word for word in re.split("[ \t]+", line) if word]


def words_of(line):
    """The words of a line in bytes, or none where it is skipped, as an empty line and a comment are."""
    try:
        words = split_words(line.decode("utf-8"))
    except UnicodeDecodeError:
        raise Refused("NOT_UTF8") from None
    return [] if words and words[0].startswith("#") else words


def number_or_none(word, signed=False):
    """The number that one to twenty decimal digits spell, where `signed` with a minus sign allowed."""
    return int(word) if (_SIGNED if signed else _NUMBER).match(word) else None


def number_of(word, low, high, signed=False):
    """A number from `low` to `high`."""
    number = number_or_none(word, signed)
    if number is None:
        raise Refused("BAD_NUMBER")
    if not low <= number <= high:
        raise Refused("LIMIT")
    return number


def int64_of(word):
    """A number of 64 bits with a sign."""
    return number_of(word, -(2**63), 2**63 - 1, signed=True)


def is_name(word):
    """Whether the word is 1 to 32 letters, digits, `_` or `-`, the first a letter."""
    return _NAME.match(word) is not None


def name_of(word):
    if not is_name(word):
        raise Refused("BAD_NAME")
    return word


def ip_of(word):
    """An address of IPv4 as a number: four numbers from 0 to 255 with dots between them."""
    parts = [number_or_none(part) for part in word.split(".")]
    if len(parts) != 4 or any(part is None or part > 255 for part in parts):
        raise Refused("BAD_NUMBER")
    return int.from_bytes(bytes(parts), "big")


def address_of(ip, port):
    """An address: an ip and a port."""
    return ip_of(ip), number_of(port, 1, 65535)


def uuid_of(word):
    """An identity as a number: 32 digits, or with hyphens, and then also in braces or behind `urn:uuid:`,
    in letters of either case."""
    if _PLAIN_UUID.match(word):
        return int(word, 16)
    if len(word) == 38 and word[0] + word[-1] == "{}":
        word = word[1:-1]
    elif word[:9].lower() == "urn:uuid:":
        word = word[9:]
    if not _HYPHENATED_UUID.match(word):
        raise Refused("BAD_UUID")
    return int(word.replace("-", ""), 16)


def bytes_of(word):
    """The bytes of an even count of hexadecimal digits."""
    if not _HEXADECIMAL.match(word):
        raise Refused("BAD_NUMBER")
    return bytes.fromhex(word)


def print_ip(ip):
    return ".".join(str(byte) for byte in ip.to_bytes(4, "big"))


def print_uuid(uuid):
    digits = f"{uuid:032x}"
    return "-".join((digits[:8], digits[8:12], digits[12:16], digits[16:20], digits[20:]))

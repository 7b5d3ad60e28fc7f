"""Random messages, their bytes and their lines, whole and damaged."""
from model.codes import STATES, TYPE_OF, TYPES
from model.messages import LAYOUTS, MOST_BYTES, RANGES, SIZES, Message, encode
from model.printed import print_message

NAMES = list(LAYOUTS)
ODD_TEXTS = ["", "-1", "-0", "256", "65536", "4294967296", "18446744073709551616", "0" * 21, "ALIVE", "alive", "1.2.3.4",
             "1.2.3.400", "zz", "abc", "ab", "00112233445566778899aabbccddeeff"]


def number(rng, low, high):
    """A number of a range: often its ends, or a small one."""
    chance = rng.random()
    if chance < .15:
        return low
    if chance < .3:
        return high
    if chance < .6:
        return max(low, min(high, rng.randint(-5, 20)))
    return rng.randint(low, high)


def some_bytes(rng, count):
    return bytes(rng.randrange(256) for _ in range(count))


def message(rng, name=None):
    """A message, of this name or of any."""
    name = name or rng.choice(NAMES)
    fields = {}
    for field, kind in LAYOUTS[name].fields:
        fields[field] = value_of(rng, kind, fields)
    size = len(encode(Message(name, **fields)))
    last, kind = LAYOUTS[name].fields[-1]
    if kind == "rest":
        fields[last] = some_bytes(rng, rng.choice([0, 1, 3, 8, 40, MOST_BYTES - size]))
    return Message(name, **fields)


def value_of(rng, kind, fields):
    if kind == "rest":
        return b""
    if kind == "state":
        return rng.choice(STATES)
    if kind == "type":
        return rng.choice(TYPES).word
    if kind == "value":
        return number(rng, TYPE_OF[fields["type"]].low, TYPE_OF[fields["type"]].high)
    if kind in ("uuid", "ip"):
        return rng.getrandbits(128 if kind == "uuid" else 32)
    return number(rng, *RANGES[kind])


def bytes_of_message(rng):
    """The bytes of a message, with a state or a type that is none, a byte changed, cut, or with more behind."""
    some = message(rng)
    data = bytearray(encode(some))
    if rng.random() < .4:
        spoil_code(rng, some, data)
    while rng.random() < .4:
        chance = rng.random()
        if chance < .3 and data:
            data[rng.randrange(len(data))] = rng.choice([0, 7, 8, 18, 19, 255])
        elif chance < .6 and data:
            del data[rng.randrange(len(data)):]
        else:
            data += some_bytes(rng, rng.choice([1, 2, 30, MOST_BYTES]))
    return bytes(data)


def spoil_code(rng, some, data):
    """Puts another code in the place of a state or of a type, mostly one that there is not."""
    at = 1
    for _, kind in LAYOUTS[some.name].fields:
        if kind in ("state", "type"):
            data[at] = rng.choice([8, 18, 19, 19, 255, 255])
            return
        at += SIZES.get(kind, 0)


def line_of_message(rng):
    """The line of a message, with words that are changed, absent or too many."""
    words = print_message(message(rng)).split()
    while words and rng.random() < .5:
        change_word(rng, words)
    line = rng.choice([" ", "  ", "\t"]).join(words).encode()
    return line + rng.choice([b"", b"\n", b"\r\n", b"\n\n", b"\nx\n", b"\n\xff"])


def change_word(rng, words):
    place, chance = rng.randrange(len(words)), rng.random()
    if chance < .3:
        words[place] = words[place].split("=")[0] + "=" + rng.choice(ODD_TEXTS)
    elif chance < .5:
        del words[place]
    elif chance < .7:
        words.insert(place, rng.choice(words + ["x", "sender=1"]))
    else:
        words[place] = words[place].replace("=", rng.choice(["", " ", "==", "=+"]))

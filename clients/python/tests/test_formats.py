"""The codes and layouts of the kit are those of the page."""
import re
import unittest

from masters import KIT

from dcp_slave.messages import HEARD, TYPES, Fault, Refusal, State

PAGE = KIT.parent.parent / "docs" / "FORMATS.md"
WIDTHS = {
    "u8": "B", "u16": "H", "u32": "I", "u64": "Q", "i64": "q", "state": "B", "type": "B", "uuid": "16s", "ip": "4s",
}


def rows_of_messages(text):
    """The fields of each message by its code, with their kinds."""
    named, coded = {}, {}
    for code, name, fields in re.findall(r"^\| ([0-9a-f]{2}) \| (\w{3}_\w+) \| ([^|]+) \|", text, re.M):
        like = re.match(r"as (\w+)", fields)
        named[name] = named[like[1]] if like else [field.split() for field in fields.split(", ")]
        coded[int(code, 16)] = name, named[name]
    return coded


@unittest.skipUnless(PAGE.exists(), "the kit stands alone")
class Formats(unittest.TestCase):
    def setUp(self):
        self.text = PAGE.read_text()

    def test_layouts_are_those_of_the_page(self):
        rows = rows_of_messages(self.text)
        self.assertEqual(len(rows), 34)
        for code, (name, names, widths) in HEARD.items():
            fields = [field for field in rows[code][1] if field[1] not in ("value", "rest")]
            self.assertEqual((name, list(names)), (rows[code][0], [field for field, _ in fields]))
            self.assertEqual(widths, "".join(WIDTHS[kind] for _, kind in fields), name)

    def test_every_request_is_heard(self):
        heard = {name for name, _, _ in HEARD.values()}
        requests = {name for name, _ in rows_of_messages(self.text).values() if name[:4] in ("STC_", "CFG_", "INF_")}
        self.assertEqual(heard, requests | {"DAT_input_output"})

    def test_codes_are_those_of_the_page(self):
        before, behind = self.text.split("| Refusal of", 1)
        states = dict(re.findall(r"\| ([01][0-9a-f]) \| ([A-Z_]+)(?= \|)", before.split("| State |")[-1]))
        self.assertEqual({code: State(int(code, 16)).name for code in states}, states)
        self.assertEqual(len(states), len(State))
        refusals = dict(re.findall(r"\| (\d+) \| ([A-Z_]+)(?= \|)", behind.split("\n\n")[0]))
        self.assertEqual({str(int(code)): code.name for code in Refusal}, refusals)
        for code, word in re.findall(r"(\d+) ([A-Z_]+)", re.search(r"Faults of a slave: ([^;]+);", self.text)[1]):
            self.assertEqual(Fault(int(code)).name, word)

    def test_types_hold_their_ranges(self):
        for kind in TYPES:
            low, high = (-128, 127) if kind.signed else (0, 255)
            scale = 1 << 8 * (kind.size - 1)
            self.assertTrue(kind.holds(low * scale) and kind.holds(high * scale + scale - 1))
            self.assertFalse(kind.holds(low * scale - 1) or kind.holds((high + 1) * scale))
            self.assertEqual(kind.read(kind.spell(low * scale)), low * scale)


if __name__ == "__main__":
    unittest.main()

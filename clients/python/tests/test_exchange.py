"""The exchange that the page shows, gone through by a slave of the kit."""
import re
import unittest

from masters import KIT, MASTER, SOURCE

from dcp_slave import Slave, read_scenario
from dcp_slave.device import Device

PAGE = KIT.parent.parent / "docs" / "PROTOCOL.md"
ADDRESSES = {"master": MASTER, "src": SOURCE}
MESSAGE = re.compile(r"    (\w+) +-> (\w+) +([0-9a-f ]+)$")


class Amplifier(Slave):
    def step(self, inputs, micro):
        return [self.parameters[0] * inputs[0] >> 16]


def exchange():
    """The scenario of the page's exchange, and its lines."""
    section = re.search(r"^### One whole exchange\n(.*?)^## ", PAGE.read_text(), re.M | re.S)[1]
    lines = section.split("\n")
    first = next(at for at, line in enumerate(lines) if MESSAGE.match(line))
    scenario = [line.strip() for line in lines[:first] if line.startswith("    ")]
    return "\n".join(scenario).encode(), lines[first:]


@unittest.skipUnless(PAGE.exists(), "the kit stands alone")
class Exchange(unittest.TestCase):
    def test_the_slave_answers_as_the_page_shows(self):
        text, lines = exchange()
        scenario = read_scenario(text, "amp")
        device, sends, count = Device(scenario, Amplifier(scenario.description)), [], 0
        for line in lines:
            shown = MESSAGE.match(line)
            if line == "    amp has its turn":
                self.assertEqual(sends, [])
                sends = device.on_turn()
            elif shown and shown[2] == "amp":
                self.assertEqual(sends, [])
                sends = device.on_datagram(ADDRESSES[shown[1]], bytes.fromhex(shown[3]))
            elif shown:
                self.assertEqual(sends.pop(0), (ADDRESSES[shown[2]], bytes.fromhex(shown[3])))
                count += 1
        self.assertEqual((sends, count), ([], 36))
        self.assertTrue(device.has_ended)


if __name__ == "__main__":
    unittest.main()

"""What is read of a scenario."""
import unittest

from masters import IDENTITY, TEXT, scenario_of

from dcp_slave import Port, ScenarioError, read_scenario
from dcp_slave.messages import TYPE_OF
from dcp_slave.serving import patience_of


class Scenarios(unittest.TestCase):
    def test_a_block(self):
        description = scenario_of("heartbeat 7\nresolution 2 5\n# busy\n\n").description
        self.assertEqual((description.number, description.identity), (2, IDENTITY))
        self.assertEqual(description.address, ("127.0.0.1", 9002))
        self.assertEqual((description.kind, description.parameters), ("gain", (131072,)))
        self.assertEqual((description.heartbeat, description.resolution), (7, (2, 5)))
        self.assertEqual(description.inputs, (Port(1, TYPE_OF["int32"]),))
        self.assertEqual(description.outputs, (Port(2, TYPE_OF["int16"]),))

    def test_the_head(self):
        scenario = scenario_of(head="protocol tcp\nmicro 4\ntries 3\nturn_limit 100\n")
        self.assertEqual((scenario.protocol, scenario.micro), ("tcp", 4))
        self.assertEqual(patience_of(scenario), 2.5)
        moved = read_scenario(TEXT.replace("127.0.0.1 9002", "127.000.0.01 9002").encode(), "amp")
        self.assertEqual(moved.description.address, ("127.0.0.1", 9002))
        self.assertEqual((scenario_of().protocol, scenario_of().micro, patience_of(scenario_of())), ("udp", 1, 2.0))

    def test_what_does_not_read(self):
        identity = "uuid 00000000-0000-0000-0000-000000000002"
        for line in ("model gain 131072", "output 2 int16", identity, "address 127.0.0.1 9002"):
            with self.assertRaises(ScenarioError):
                read_scenario(TEXT.replace(line + "\n", "").encode(), "amp")
        for old, new in (("int16", "int12"), ("127.0.0.1 9002", "127.0.0.1 x"), ("000000000002", "00000000002"),
                         ("gain 131072", "gain x"), ("127.0.0.1 9002", "localhost 9002"), ("127.0.0.1 9002", "9002")):
            with self.assertRaises(ScenarioError):
                read_scenario(TEXT.replace(old, new).encode(), "amp")
        for text, name in ((TEXT.encode(), "ampere"), (b"\xff" + TEXT.encode(), "amp")):
            with self.assertRaises(ScenarioError):
                read_scenario(text, name)


if __name__ == "__main__":
    unittest.main()

"""What the examples compute."""
import pathlib
import sys
import unittest

from masters import KIT

sys.path.insert(0, str(KIT / "examples"))

from dcp_slave import read_scenario  # noqa: E402
import exchanger  # noqa: E402
import loop  # noqa: E402
import oscillator  # noqa: E402


class Examples(unittest.TestCase):
    def test_the_oscillator_swings_without_growing(self):
        scenario = read_scenario((KIT / "examples/oscillator.txt").read_bytes(), "osc")
        slave = oscillator.Oscillator(scenario.description)
        rows = [slave.start()] + [slave.step([], 1) for _ in range(10000)]
        # x' = x + v / 10 and then v' = v - x' / 10: both factors are 6,554 / 65,536.
        self.assertEqual(rows[:3], [(1000, 0), (1000, -100), (990, -199)])
        self.assertEqual(max(abs(position) for position, _ in rows), 1001)
        self.assertLess(min(position for position, _ in rows), -1000)

    def test_micro_steps_are_steps(self):
        scenario = read_scenario((KIT / "examples/oscillator.txt").read_bytes(), "osc")
        once, thrice = (oscillator.Oscillator(scenario.description) for _ in range(2))
        once.start(), thrice.start()
        self.assertEqual([once.step([], 1) for _ in range(3)][-1], thrice.step([], 3))

    def test_the_loop_gives_the_rows_of_the_scenario(self):
        text = pathlib.Path(KIT / "examples/loop.txt").read_bytes()
        amp, acc = (loop.make(read_scenario(text, name).description) for name in ("amp", "acc"))
        rows = [(amp.start()[0], acc.start()[0])]
        for _ in range(5):
            rows.append((amp.step([rows[-1][1]], 1)[0], acc.step([rows[-1][0]], 1)[0]))
        self.assertEqual(rows, [(0, 10), (20, 10), (20, 20), (40, 30), (60, 50), (100, 80)])

    def test_the_exchanger_gives_the_rows_that_stand_beside_it(self):
        text = (KIT / "examples/exchanger.txt").read_bytes()
        slave = exchanger.Exchanger(read_scenario(text, "exchanger").description)
        slave.parameters = [400, 200]  # as its `set` line says
        # a ramp from 600 by 10, a constant, the exchanger on both, and the sum of its outputs; nobody sees what
        # another shows in the same step
        rows = [(600, 100, *slave.start(), 0)]
        for _ in range(12):
            last = rows[-1]
            rows.append((last[0] + 10, 100, *slave.step(last[:2], 1), last[2] + last[3]))
        said = "".join(f"{number} {' '.join(map(str, row))}\n" for number, row in enumerate(rows))
        self.assertEqual((KIT / "examples/exchanger.rows").read_text(), f"{said}finished 12\n")


if __name__ == "__main__":
    unittest.main()

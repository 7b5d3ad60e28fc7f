"""Random scenarios that read, and texts with lines that are changed, absent or too many."""
from model.codes import TYPE_OF
from model.kinds import EXTERNAL, KINDS, OUTPUTS, takes_parameters
from model.texts import print_description, read_scenario

from .messages import number

WORDS = list(TYPE_OF)
HURT_TYPES = "01 02 03 04 05 06 07 08 09 0a 20 22 23 24 25 26 80 81 b0 b1 b2 b3 e0 f0".split()

# Lines that stand in the wrong place or are wrong in themselves.
ODD_LINES = """wire s1 0 s1 0|wire s1 0 s2 0|set s1 0 1|set s1 9 1|drop 0 80 1|drop 9 80 1|copy 1 f0 0 1001|hold 1 f0 1 1
chaos 1 0 0 0|chaos 1 0 0 1001|every s1 s2 2|every s1 s1 0|rerun_set 2 s1 0 1|rerun_set 1 s1 0 1|steps 5|micro 1001|runs 2
runs 101|tries 0|protocol tcp|protocol TCP|slave s1|slave s9|slave 9|uuid 1|uuid {00112233-4455-6677-8899-aabbccddeeff}
address 127.0.0.1 9000|address 127.0.0.1 9077|address 127.0.0.256 1|model gain 1|model gain|model nothing|model external|model external 1 -2 3|model external x|model limiter 2 1
busy 51|busy 5|heartbeat 7|resolution 0 1|input 1 int8|input 1 float|output 1 int64|output x int8|# comment||begin|turn
step_tries 1|step_tries 2|master 127.0.0.1 8999""".replace("\n", "|").split("|")
ODD_WORDS = ["", "x", "0", "-1", "1", "99999999999999999999", "s1", "s2", "int8", "1.2.3.4"]


def parameters(rng, kind, wild):
    """Parameters that a kind takes; wild ones are of any size."""
    def value():
        return number(rng, -2**63, 2**63 - 1) if wild else rng.randint(-300, 300)

    def factor():
        return value() if wild else rng.choice([0, 65536, -65536, 32768, 16384, 131072, 70000, -1, 1])

    def share():
        return rng.randint(0, 65536)

    def size():
        return abs(value()) % 2**63

    return {
        "ramp": lambda: [value(), value()], "counter": lambda: [rng.choice([1, 2, 10, 1000, 2**63 - 1])],
        "gain": lambda: [factor()], "sum": lambda: [], "integrator": lambda: [value(), factor()],
        "lag": lambda: [value(), share()], "delay": lambda: [value(), rng.choice([1, 2, 3, 8, 64])],
        "limiter": lambda: sorted([value(), value()]), "deadband": lambda: [size()],
        EXTERNAL: lambda: [value() for _ in range(rng.choice([0, 1, 3, 5, 64]))],
        "oscillator": lambda: [value(), value(), factor(), factor()], "tank": lambda: [size(), factor(), share()],
    }.get(kind, lambda: [value()])()


class Draft:
    """A scenario while it is drawn. Without losses its limits leave time enough for a run to finish."""

    def __init__(self, rng):
        self.rng = rng
        self.lossless, self.wild = rng.random() < .4, rng.random() < .3
        self.runs = rng.choice([1, 1, 1, 2, 3])
        self.count = rng.choice([1, 1, 2, 2, 3, 4, 5])
        self.type = rng.choice(WORDS if rng.random() < .3 else ["int32", "int64"])
        self.slaves = []

    def text(self):
        lines = self.head()
        for slave in range(1, self.count + 1):
            lines += self.block(slave)
        return "".join(line + "\n" for line in lines + self.wires() + self.settings() + self.plan()).encode()

    def head(self):
        rng = self.rng
        lines = [f"steps {rng.choice([0, 1, 2, 5, 9])}", "master 127.0.0.1 9000"]
        lines += [f"runs {self.runs}"] if self.runs > 1 else []
        lines += [f"micro {rng.choice([1, 2, 3, 7])}"] if rng.random() < .3 else []
        lines += ["protocol " + rng.choice(["udp", "tcp"])] if rng.random() < .2 else []
        lines += self.limits() if rng.random() < .3 else []
        rng.shuffle(lines)
        return lines

    def limits(self):
        rng = self.rng
        choices = {key: [4 if self.lossless else 1, 5, 9, 20, 50] for key in ("turn_limit", "watch_turns", "retry_turns", "data_turns")}
        choices.update(tries=[1, 2, 4, 20], step_tries=[2, 3, 20])
        choices.update({} if self.lossless else {"state_limit": [1, 3, 30, 200]})
        return [f"{key} {rng.choice(values)}" for key, values in choices.items() if rng.random() < .5]

    def block(self, slave):
        """The lines of a slave, whose ports come in any order."""
        rng, kind = self.rng, self.kind()
        values = parameters(rng, kind, self.wild)
        lines = [f"uuid {rng.getrandbits(128):032x}", f"address 127.0.0.1 {9000 + slave}",
                 " ".join(["model", kind] + [str(it) for it in values])]
        lines += [f"busy {rng.choice([0, 1, 3, 25, 50])}"] if rng.random() < .3 else []
        lines += [f"heartbeat {rng.choice([500, 1000] if self.lossless else [5, 30, 200])}"] if rng.random() < .2 else []
        lines += ["resolution 3 7"] if rng.random() < .2 else []
        lines += self.ports("input", self.inputs(kind))
        lines += self.ports("output", rng.randint(1, 8) if kind == EXTERNAL else OUTPUTS[kind])
        rng.shuffle(lines)
        ports = {word: [line.split()[2] for line in lines if line.startswith(word)] for word in ("input", "output")}
        self.slaves.append((kind, values, ports["input"], ports["output"]))
        return [f"slave s{slave}"] + lines

    def kind(self):
        """A kind; seldom one that is elsewhere."""
        return EXTERNAL if self.rng.random() < .02 else self.rng.choice(list(KINDS))

    def inputs(self, kind):
        """How many inputs a slave of a kind gets."""
        return self.rng.randint(0, 8) if kind == EXTERNAL else self.rng.randint(KINDS[kind].least_inputs, KINDS[kind].most_inputs)

    def ports(self, word, count):
        references = self.rng.sample(range(100), count)
        return [f"{word} {it} {self.type if self.rng.random() < .85 else self.rng.choice(WORDS)}" for it in references]

    def wires(self):
        rng, lines, pairs = self.rng, [], set()
        for target, (_, _, inputs, _) in enumerate(self.slaves, 1):
            for into, word in enumerate(inputs):
                sources = [(source, out) for source, slave in enumerate(self.slaves, 1)
                           for out, other in enumerate(slave[3]) if other == word]
                if sources and rng.random() < .85:
                    source, out = rng.choice(sources)
                    lines.append(f"wire s{source} {out} s{target} {into}")
                    pairs.add((source, target))
        rng.shuffle(lines)
        return lines + [f"every s{source} s{target} {rng.choice([1, 2, 3, 5, 1000])}"
                        for source, target in sorted(pairs) if rng.random() < .3]

    def settings(self):
        rng = self.rng
        lines = ["set " + self.setting() for _ in range(rng.choice([0, 0, 1, 3]))]
        for run in range(2, self.runs + 1):
            lines += [f"rerun_set {run} " + self.setting() for _ in range(rng.choice([0, 1, 2]))]
        return [line for line in lines if line.split()[-1] != "none"]

    def setting(self):
        """A setting that the kind takes after all before, or `none`."""
        rng, slave = self.rng, self.rng.randrange(self.count)
        kind, values = self.slaves[slave][:2]
        if not values:
            return "none"
        index = rng.randrange(len(values))
        changed = list(values)
        changed[index] = rng.randint(-300, 300) if kind == EXTERNAL else parameters(rng, kind, self.wild)[index]
        if not takes_parameters(kind, changed):
            return "none"
        values[index] = changed[index]
        return f"s{slave + 1} {index} {changed[index]}"

    def plan(self):
        """What befalls messages."""
        rng, lines = self.rng, []
        if self.lossless:
            return [f"chaos {rng.getrandbits(64)} 0 {rng.choice([0, 100, 1000])} 0"] if rng.random() < .3 else []
        for _ in range(rng.choice([0, 1, 2, 5])):
            end, type_id = self.hurt()
            what = rng.choice(["drop", "copy", "hold"])
            lag = "" if what == "drop" else f" {rng.choice([1, 2, 5, 20, 100, 1000])}"
            lines.append(f"{what} {end} {type_id} {rng.choice([0, 1, 1, 2, 3, 4, 5, 6, 8, 12, 13])}{lag}")
        if rng.random() < .5:
            rates = [rng.choice(them) for them in ([0, 5, 20, 100], [0, 100, 500], [0, 100, 500, 1000])]
            lines.append("chaos {} {} {} {}".format(rng.getrandbits(64), *rates))
        return lines

    def hurt(self):
        """An end and a type of messages, most often one that the end sends in every run."""
        rng = self.rng
        if rng.random() < .4:
            return rng.randint(0, self.count), rng.choice(HURT_TYPES)
        slave = rng.randint(1, self.count)
        return rng.choice([(0, "80"), (0, "07"), (0, "08"), (slave, "b0"), (slave, "f0"), (slave, "b2"), (slave, "e0")])


def scenario(rng):
    """The text of a scenario that reads."""
    return Draft(rng).text()


def changed_scenario(rng):
    return changed(rng, scenario(rng))


def changed_description(rng):
    slave = rng.choice(read_scenario(scenario(rng)).slaves)
    return changed(rng, print_description(slave).encode())


def changed(rng, text):
    """A text with some lines changed, absent, too many, or in another order."""
    lines = text.decode().split("\n")
    while lines and rng.random() < .75:
        change_line(rng, lines)
    return rng.choice(["\n", "\n", "\n", "\r\n"]).join(lines).encode()


def change_line(rng, lines):
    place, chance = rng.randrange(len(lines)), rng.random()
    if chance < .25:
        del lines[place]
    elif chance < .5:
        lines.insert(place, rng.choice(ODD_LINES))
    elif chance < .6:
        lines.insert(place, rng.choice(lines))
    elif chance < .8:
        words = lines[place].split(" ")
        at = rng.randrange(len(words))
        words[at] = rng.choice(ODD_WORDS + [words[at] + "0", "0" + words[at]])
        lines[place] = " ".join(words)
    else:
        other = rng.randrange(len(lines))
        lines[place], lines[other] = lines[other], lines[place]

"""The scenario that is drawn from a number."""
from .generator import Generator


def drawn_text(number):
    """The text of the scenario of this number."""
    draw, count = Generator(number).draw, 2 + number % 15
    lines, wires = [f"steps {200 + number % 301}", "master 127.0.0.1 9000"], []
    for slave in range(1, count + 1):
        lines += [f"slave s{slave}", f"uuid 00000000-0000-0000-0000-{slave:012x}", f"address 127.0.0.1 {9000 + slave}"]
        if slave == 1:
            lines.append("model counter 1000")
        else:
            kind, delay, source = draw(), draw(), draw()
            models = ["lag 0 16384", f"delay 0 {1 + delay % 8}", "limiter -400 400", "deadband 5"]
            lines += [f"model {models[kind % 4]}", "input 1 int32"]
            wires.append(f"wire s{1 + source % count} 0 s{slave} 0")
        lines.append("output 2 int32")
    return "".join(line + "\n" for line in lines + wires + [f"chaos {number} 0 100 100"]).encode()

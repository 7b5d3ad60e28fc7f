"""The network in memory, with the plan of a scenario."""
import heapq

from .generator import Generator

LAST_AGE = 32767


class Network:
    """Messages between the ends at these addresses, the master's first."""

    def __init__(self, addresses, lines, chaos):
        self.end_at = {address: end for end, address in enumerate(addresses)}
        self.lines, self.chaos = lines, chaos
        self.generator = Generator(chaos.start if chaos else 0)
        self.sent = 0
        self.counts = {}
        self.waiting = {}

    def send(self, sender, to, data):
        """Sends a message. Its deliveries wait by their due number, and of these by the order of sending."""
        self.sent += 1
        waiting = self.waiting.setdefault(to, [])
        for nth, due in enumerate(self.deliveries(sender, data[0])):
            heapq.heappush(waiting, (due, self.sent, nth, sender, data))

    def deliveries(self, sender, type_id):
        """The due numbers of the newest message's deliveries. Each message takes its draws, also where a
        line names it."""
        line = self.line_of(sender, type_id)
        by_chance = self.by_chance()
        if line is None:
            return by_chance
        late = self.sent + line.lag
        return {"drop": [], "hold": [late], "copy": [self.sent, late]}[line.what]

    def line_of(self, sender, type_id):
        """The first line of the plan that names the message, or None."""
        end = self.end_at.get(sender)
        if end is None:
            return None
        count = self.counts[end, type_id] = self.counts.get((end, type_id), 0) + 1
        for line in self.lines:
            if (line.end, line.type_id) == (end, type_id) and line.nth in (0, count):
                return line
        return None

    def by_chance(self):
        """The due numbers of a message that no line names."""
        if not self.chaos:
            return [self.sent]
        lost, repeated, held, lag = (self.generator.draw() for _ in range(4))
        if lost % 1000 < self.chaos.drop:
            return []
        lag = 1 + lag % 3
        first = self.sent + (lag if held % 1000 < self.chaos.hold else 0)
        return [first, first + lag] if repeated % 1000 < self.chaos.repeat else [first]

    def take(self, at):
        """The next datagram that is due at an address, behind its sender, or None."""
        waiting = self.waiting.get(at, [])
        while waiting and waiting[0][0] <= self.sent:
            _, number, _, sender, data = heapq.heappop(waiting)
            if self.sent - number <= LAST_AGE:
                return sender, data
        return None

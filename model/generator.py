"""The generator of numbers that the network in memory and drawn scenarios share."""


class Generator:
    """A row of draws that is fixed by its first number."""

    def __init__(self, start):
        self.x = start

    def draw(self):
        """The next draw, of 31 bits."""
        self.x = (self.x * 6364136223846793005 + 1442695040888963407) % 2**64
        return self.x >> 33

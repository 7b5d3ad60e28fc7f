"""Random words of a command line, mostly of no command."""
from model.commands import PLAIN

WORDS = list(PLAIN) + ["soak", "conform", "7", "007", "1234567", "+5", "0x1", "-5", "-", "--help", "Decode", "decodes", "s1", "9x", "now"]


def words(rng):
    """One to three words, of which the first names no command over sockets."""
    return [rng.choice(WORDS) for _ in range(rng.choice([1, 2, 2, 2, 3]))]

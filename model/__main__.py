"""Calls the model as the program is called: python3 -m model WORDS.. < input > output 2> trace"""
import sys

from .commands import call, command_of, reads_input

OVER_SOCKETS = ("live", "master", "slave")


def main(words):
    if words and words[0] in OVER_SOCKETS:
        sys.exit("the model has no sockets: `run` is the same over the network in memory")
    reads = command_of(words) and reads_input(words)
    outcome = call(words, sys.stdin.buffer.read() if reads else b"")
    sys.stdout.buffer.write(outcome.out)
    sys.stderr.buffer.write(outcome.trace)
    return outcome.status


if __name__ == "__main__":
    sys.exit(main(sys.argv[1:]))

"""Ports of this machine that nobody has, for scenarios that run over sockets."""
import random
import socket


def is_free(port):
    """Whether no process has the port, for either protocol."""
    for kind in (socket.SOCK_DGRAM, socket.SOCK_STREAM):
        with socket.socket(socket.AF_INET, kind) as it:
            try:
                it.bind(("127.0.0.1", port))
            except OSError:
                return False
    return True


def at_free_ports(text):
    """The scenario at ports below 32,000 in place of its own from 9000 to 9009."""
    for _ in range(100):
        tens = random.randrange(1000, 3200)
        if all(is_free(10 * tens + digit) for digit in range(10)):
            return text.replace(" 127.0.0.1 900", f" 127.0.0.1 {tens}")
    raise OSError("no ten ports in a row are free")

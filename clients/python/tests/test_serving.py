"""A slave over sockets: a whole session with a master of the test, over UDP and TCP."""
import io
import pathlib
import socket
import struct
import subprocess
import sys
import threading
import unittest

from masters import KIT, TEXT, Doubler, data, register, request

from dcp_slave import read_scenario, serve
from dcp_slave.ends import MOST_INWARD, open_end
from dcp_slave.messages import State, address_bytes

WAIT = 20


def free_ports(count):
    """Ports of this machine that nobody has, over UDP and TCP."""
    held, ports = [], []
    while len(ports) < count:
        udp = socket.socket(socket.AF_INET, socket.SOCK_DGRAM)
        udp.bind(("127.0.0.1", 0))
        held.append(udp)
        port = udp.getsockname()[1]
        with socket.socket() as tcp:
            if tcp.connect_ex(("127.0.0.1", port)) != 0:
                ports.append(port)
    for udp in held:
        udp.close()
    return ports


def is_shut(connection):
    """Whether the other side has closed the connection, or does so within a moment."""
    connection.settimeout(0.01)
    try:
        return connection.recv(1) == b""
    except socket.timeout:
        return False
    except ConnectionError:
        return True


class TestMaster:
    """A master and a source of data, with ends like those of the kit."""
    __test__ = False

    def __init__(self, protocol, ports):
        self.addresses = [("127.0.0.1", port) for port in ports]
        self.master, self.source = (open_end(protocol, address) for address in self.addresses[:2])
        self.slave = self.addresses[2]
        self.number = 0

    def answer(self):
        """The next message at the master's address."""
        for _ in range(int(WAIT / 0.05)):
            self.master.wait(0.05)
            taken = self.master.take()
            if taken:
                assert taken[0] == self.slave
                return taken[1]
        raise TimeoutError("the slave says nothing")

    def ask(self, message):
        """Sends a message until an answer comes."""
        self.master.send(self.slave, message)
        return self.answer()

    def request(self, name, *fields):
        message = request(name, self.number, *fields)
        self.number += 1
        answer = self.ask(message)
        assert answer == struct.pack("<BHB", 0xb0, self.number - 1, 2), answer.hex()

    def change(self, name, state, told, *fields):
        """A change of state, and what the slave tells behind its acknowledgement, but for its data."""
        self.request(name, state, *fields)
        messages = [self.answer()]
        while messages[-1][0] == 0xf0:
            messages.append(self.answer())
        assert messages[-1] == bytes([0xe0, 2, told]), messages[-1].hex()
        return messages[:-1]

    def setup(self):
        def network(name, data_id, end):
            self.request(name, data_id, 0, self.addresses[end][1], address_bytes(self.addresses[end])[:4])

        self.number = 1
        self.request("CFG_time_res", 1, 1000)
        self.request("CFG_input", 17, 0, 1, 6)
        network("CFG_source_network_information", 17, 1)
        self.request("CFG_output", 2, 0, 2)
        network("CFG_target_network_information", 2, 0)

    def session(self):
        """A run of one step. The data messages of the slave."""
        assert self.ask(register()) == struct.pack("<BHB", 0xb0, 0, 2)
        self.setup()
        self.change("STC_prepare", State.CONFIGURATION, State.PREPARED)
        self.source.send(self.slave, data(0, 17, struct.pack("<i", -3)))
        self.change("STC_configure", State.PREPARED, State.CONFIGURED)
        self.change("STC_initialize", State.CONFIGURED, State.INITIALIZED)
        sent = self.change("STC_send_outputs", State.INITIALIZED, State.CONFIGURED)
        self.change("STC_run", State.CONFIGURED, State.RUNNING, 0)
        self.change("STC_do_step", State.RUNNING, State.COMPUTED, 1)
        sent += self.change("STC_send_outputs", State.COMPUTED, State.RUNNING)
        self.change("STC_stop", State.RUNNING, State.STOPPED)
        self.request("STC_deregister", State.STOPPED)
        return sent

    def close(self):
        self.master.close()
        self.source.close()


class Sessions(unittest.TestCase):
    def session_over(self, protocol):
        ports = free_ports(3)
        text = f"protocol {protocol}\n{TEXT}"
        for old, new in zip((9000, 9001, 9002), ports):
            text = text.replace(f" {old}\n", f" {new}\n")
        scenario, trace, ended = read_scenario(text.encode(), "amp"), io.BytesIO(), []
        slave = Doubler(scenario.description)
        thread = threading.Thread(target=lambda: ended.append(serve(scenario, slave, trace, 1.0)))
        master = TestMaster(protocol, ports)
        thread.start()
        try:
            self.wait_for_slave(protocol, master)
            self.assertEqual(master.session(), [data(0, 2, b"\0\0"), data(1, 2, struct.pack("<h", -6))])
            # The last acknowledgement is asked for once more, as by a master that lost it.
            again = master.ask(request("STC_deregister", master.number - 1, State.STOPPED))
            self.assertEqual(again, struct.pack("<BHB", 0xb0, master.number - 1, 2))
            thread.join(WAIT)
        finally:
            master.close()
        self.assertEqual((ended[0].steps, ended[0].has_ended), (1, True))
        self.assertEqual(trace.getvalue()[:13], b"DCPR\x01" + struct.pack("<II", 4, len(text)))
        self.assertEqual(trace.getvalue().count(b"\xe0\x02\x0b"), 2)

    def wait_for_slave(self, protocol, master):
        """Waits until the slave has its port. A probe that takes the port itself could take it from the slave."""
        for _ in range(200):
            if protocol == "udp" and f":{master.slave[1]:04X} " in pathlib.Path("/proc/net/udp").read_text():
                return
            if protocol == "tcp":
                with socket.socket(socket.AF_INET, socket.SOCK_STREAM) as probe:
                    if probe.connect_ex(master.slave) == 0:
                        return
            threading.Event().wait(0.05)
        raise TimeoutError("the slave does not begin")

    def test_over_udp(self):
        self.session_over("udp")

    def test_over_tcp(self):
        self.session_over("tcp")

    def test_a_frame_of_no_length_ends_a_connection(self):
        port = free_ports(1)[0]
        end = open_end("tcp", ("127.0.0.1", port))
        with socket.create_connection(("127.0.0.1", port)) as stranger:
            stranger.sendall(address_bytes(("127.0.0.1", 9000)) + struct.pack("<IB", 1, 7) + struct.pack("<I", 0))
            taken = []
            while not taken or end.inward:
                end.wait(1)
                taken.append(end.take())
            self.assertEqual([it for it in taken if it], [(("127.0.0.1", 9000), b"\x07")])
            self.assertEqual(stranger.recv(1), b"")
        end.close()

    def test_strangers_make_way(self):
        port, master = free_ports(1)[0], ("127.0.0.1", 9000)
        end = open_end("tcp", ("127.0.0.1", port))
        frame = address_bytes(master) + struct.pack("<IB", 1, 7)
        with socket.create_connection(("127.0.0.1", port)) as known:
            known.sendall(frame)
            while end.take() is None:
                end.wait(1)
            strangers = [socket.create_connection(("127.0.0.1", port)) for _ in range(40)]
            while not is_shut(strangers[8]):
                end.take()
            known.sendall(frame[6:])
            taken = None
            while taken is None:
                end.wait(1)
                taken = end.take()
            self.assertEqual((taken, len(end.inward)), ((master, b"\x07"), MOST_INWARD))
            for stranger in strangers:
                stranger.close()
        end.close()

    def test_what_cannot_be_reached_is_lost(self):
        port, nobody = free_ports(2)
        end = open_end("tcp", ("127.0.0.1", port))
        for to in (("127.0.0.1", 0), ("127.0.0.1", nobody)):
            end.send(to, b"\x07")
            for _ in range(20):
                end.wait(0.01)
                end.take()
        self.assertEqual(end.outward, {})
        end.close()

    def test_the_words_of_an_example(self):
        words = [sys.executable, KIT / "examples/loop.py", "none"]
        done = subprocess.run(words, input=TEXT.encode(), capture_output=True, check=False)
        self.assertEqual((done.returncode, done.stderr), (2, b"the scenario has no slave none\n"))


if __name__ == "__main__":
    unittest.main()

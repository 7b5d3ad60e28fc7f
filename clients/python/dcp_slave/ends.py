"""A slave's end of the network, over UDP or TCP."""
import errno
import select
import socket
import struct
from collections import deque
from typing import Optional

from .messages import MOST_BYTES, Address, address_bytes, address_of

GREETING_BYTES = 6
LENGTH_BYTES = 4
MOST_WAITING = 1 << 20
MOST_INWARD = 32
# What the system says of a connection that is still being made.
NOT_YET = (errno.ENOTCONN, errno.EINPROGRESS, errno.EALREADY)


def open_end(protocol: str, address: Address):
    """An end at this address. OSError where it is in use, or is not one of this machine."""
    return UdpEnd(address) if protocol == "udp" else TcpEnd(address)


class UdpEnd:
    """An end over UDP: a message is a datagram."""

    def __init__(self, address: Address):
        self.socket = socket.socket(socket.AF_INET, socket.SOCK_DGRAM)
        self.socket.bind(address)
        self.socket.setblocking(False)

    def wait(self, seconds: float) -> None:
        """Waits until a message is there, at most so long."""
        select.select([self.socket], [], [], seconds)

    def take(self) -> Optional[tuple]:
        """The next message as its sender's address and its bytes, or None. One that is longer than 1,025 bytes is
        cut."""
        try:
            data, sender = self.socket.recvfrom(MOST_BYTES + 1)
            return sender, data
        except (BlockingIOError, ConnectionError):
            return None

    def send(self, to: Address, data: bytes) -> None:
        """Sends a message. What the system does not take is lost."""
        try:
            self.socket.sendto(data, to)
        except OSError:
            pass

    def close(self) -> None:
        self.socket.close()


class TcpEnd:
    """An end over TCP: what comes in comes over connections that others open, and what goes out goes over its own."""

    def __init__(self, address: Address):
        self.address = address
        self.listener = socket.create_server(address)
        self.listener.setblocking(False)
        self.inward: list = []
        self.outward: dict = {}
        self.taken: deque = deque()

    def wait(self, seconds: float) -> None:
        """Waits until something comes or can be sent on, at most so long."""
        readers = [self.listener, *(link.socket for link in self.inward)]
        writers = [link.socket for link in self.outward.values() if link.pending]
        if not self.taken:
            select.select(readers, writers, [], seconds)

    def take(self) -> Optional[tuple]:
        """The next message as the address of its sender's greeting and its bytes, or None."""
        for to in list(self.outward):
            self._flush(to)
        self._let_in()
        for link in list(self.inward):
            if self.taken:
                break
            if not link.read(self.taken):
                link.socket.close()
                self.inward.remove(link)
        return self.taken.popleft() if self.taken else None

    def _let_in(self) -> None:
        try:
            connection, _ = self.listener.accept()
        except (BlockingIOError, ConnectionError):
            return
        connection.setblocking(False)
        if len(self.inward) == MOST_INWARD:
            self._give_way()
        self.inward.append(Inward(connection))

    def _give_way(self) -> None:
        """Closes the oldest connection that has brought no message, and where there is none, the oldest."""
        strange = [link for link in self.inward if not link.has_brought]
        link = (strange or self.inward)[0]
        link.socket.close()
        self.inward.remove(link)

    def send(self, to: Address, data: bytes) -> None:
        """Sends a message. It is lost where no connection can be made, or too much waits already."""
        link = self.outward.get(to)
        if link is None or link.is_closed():
            self.outward[to] = link = Outward(to, address_bytes(self.address))
        if len(link.pending) < MOST_WAITING:
            link.pending += struct.pack("<I", len(data)) + data
        self._flush(to)

    def _flush(self, to: Address) -> None:
        """Sends on what waits. A connection that breaks is given up, with what waits."""
        if not self.outward[to].flush():
            self.outward.pop(to).socket.close()

    def close(self) -> None:
        for opened in (self.listener, *(link.socket for link in (*self.inward, *self.outward.values()))):
            opened.close()


class Inward:
    """A connection that somebody opened: a greeting, and frames behind it."""

    def __init__(self, connection: socket.socket):
        self.socket = connection
        self.sender: Optional[Address] = None
        self.pending = b""
        self.has_brought = False

    def read(self, taken: deque) -> bool:
        """Takes the messages that are whole. Whether more can come over this connection."""
        try:
            piece = self.socket.recv(1 << 16)
        except BlockingIOError:
            return True
        except OSError:
            return False
        self.pending += piece
        return self._cut(taken) and bool(piece)

    def _cut(self, taken: deque) -> bool:
        """Cuts the whole frames off what was read. Whether all are frames."""
        if self.sender is None and len(self.pending) >= GREETING_BYTES:
            self.sender, self.pending = address_of(self.pending), self.pending[GREETING_BYTES:]
        while self.sender and len(self.pending) >= LENGTH_BYTES:
            length = struct.unpack_from("<I", self.pending)[0]
            if not 1 <= length <= MOST_BYTES:
                return False
            end = LENGTH_BYTES + length
            if len(self.pending) < end:
                break
            taken.append((self.sender, self.pending[LENGTH_BYTES:end]))
            self.has_brought = True
            self.pending = self.pending[end:]
        return True


class Outward:
    """A connection of the slave's own, and what waits to go out over it."""

    def __init__(self, to: Address, greeting: bytes):
        self.socket = socket.socket(socket.AF_INET, socket.SOCK_STREAM)
        self.socket.setblocking(False)
        self.socket.setsockopt(socket.IPPROTO_TCP, socket.TCP_NODELAY, 1)
        self.pending = greeting
        self.can_begin = self.socket.connect_ex(to) in (0, errno.EINPROGRESS, errno.EWOULDBLOCK)

    def is_closed(self) -> bool:
        """Whether the other side has closed it. It sends nothing over this connection, so all that comes is its end."""
        try:
            return self.socket.recv(1, socket.MSG_PEEK) == b""
        except BlockingIOError:
            return False
        except OSError as error:
            return error.errno not in NOT_YET

    def flush(self) -> bool:
        """Sends on what waits. Whether the connection still stands."""
        if not self.can_begin:
            return False
        try:
            while self.pending:
                self.pending = self.pending[self.socket.send(self.pending):]
        except BlockingIOError:
            return True
        except OSError as error:
            return error.errno in NOT_YET
        return True

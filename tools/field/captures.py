"""Captures as Wireshark reads them: a header, and packets of UDP over IPv4."""
import struct

RAW_IPV4 = 228
IP_BYTES, UDP_BYTES, UDP = 20, 8, 17


def capture_header() -> bytes:
    """The header of a file of packets that begin with IPv4."""
    return struct.pack("<IHHiIII", 0xa1b2c3d4, 2, 4, 0, 0, 65535, RAW_IPV4)


def checksum(data: bytes) -> int:
    """The checksum of the header of a packet of IPv4."""
    total = sum(struct.unpack(f">{len(data) // 2}H", data))
    while total >> 16:
        total = (total & 0xffff) + (total >> 16)
    return total ^ 0xffff


def ip_bytes(ip: str) -> bytes:
    """An ip as packets have it, its first part first."""
    return bytes(int(part) for part in ip.split("."))


def packet(sender: tuple, receiver: tuple, data: bytes) -> bytes:
    """A datagram as IPv4 and UDP, without a checksum of UDP."""
    udp = struct.pack(">HHHH", sender[1], receiver[1], UDP_BYTES + len(data), 0) + data
    head = struct.pack(">BBHHHBBH", 0x45, 0, IP_BYTES + len(udp), 0, 0, 64, UDP, 0)
    head += ip_bytes(sender[0]) + ip_bytes(receiver[0])
    return head[:10] + struct.pack(">H", checksum(head)) + head[12:] + udp


def record(microseconds: int, raw: bytes) -> bytes:
    """A packet as it stands in the file, behind its time."""
    return struct.pack("<IIII", microseconds // 1000000, microseconds % 1000000, len(raw), len(raw)) + raw

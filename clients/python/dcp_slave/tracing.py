"""The trace of a slave: what it got, what it sent, and its turns, as `./dcpctl conform NAME` reads them."""
import struct
from typing import BinaryIO, Optional

from .messages import Address, address_bytes
from .scenario import Scenario

SENT, GOT, TURN = b"\x01", b"\x02", b"\x04"


class Trace:
    """Writes a trace to a file, or nowhere where there is none."""

    def __init__(self, file: Optional[BinaryIO], scenario: Scenario):
        self.file, self.at = file, address_bytes(scenario.description.address)
        hosted = 1 << scenario.description.number
        self._write(b"DCPR\x01" + struct.pack("<II", hosted, len(scenario.text)) + scenario.text)

    def got(self, sender: Address, data: bytes) -> None:
        self._write(GOT + self.at + address_bytes(sender) + struct.pack("<H", len(data)) + data)

    def sent(self, to: Address, data: bytes) -> None:
        self._write(SENT + self.at + address_bytes(to) + struct.pack("<H", len(data)) + data)

    def turn(self) -> None:
        self._write(TURN + self.at)

    def _write(self, data: bytes) -> None:
        if self.file:
            self.file.write(data)

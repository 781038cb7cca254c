"""The layouts of PTP messages, told to dpkt, which reads and writes them.

Nothing here judges a message: what becomes of a frame is the program's alone. Names are those of
IEEE 1588-2019, clause 13.
"""

from __future__ import annotations

import dpkt

SYNC = 0x0
DELAY_REQ = 0x1
FOLLOW_UP = 0x8
DELAY_RESP = 0x9
ANNOUNCE = 0xB
MANAGEMENT = 0xD

TYPE_NAMES = {
    SYNC: "Sync",
    DELAY_REQ: "Delay_Req",
    0x2: "Pdelay_Req",
    0x3: "Pdelay_Resp",
    FOLLOW_UP: "Follow_Up",
    DELAY_RESP: "Delay_Resp",
    0xA: "Pdelay_Resp_Follow_Up",
    ANNOUNCE: "Announce",
    0xC: "Signaling",
    MANAGEMENT: "Management",
}

TWO_STEP = 0x0200
CORRECTION_UNIT = 65_536
SECOND = 1_000_000_000

HEADER = (
    ("sdo_and_type", "B", 0),
    ("version", "B", 2),
    ("length", "H", 0),
    ("domain", "B", 0),
    ("minor_sdo", "B", 0),
    ("flags", "H", 0),
    ("correction", "q", 0),
    ("specific", "I", 0),
    ("clock", "8s", bytes(8)),
    ("port", "H", 0),
    ("sequence", "H", 0),
    ("control", "B", 0),
    ("interval", "b", 0),
)
TIMESTAMP = (("seconds_high", "H", 0), ("seconds", "I", 0), ("nanoseconds", "I", 0))


class Message(dpkt.Packet):
    """The header that all messages begin with (13.3)."""

    __byte_order__ = ">"
    __hdr__ = HEADER

    @property
    def type(self) -> int:
        """messageType."""
        return self.sdo_and_type & 0x0F

    @property
    def name(self) -> str:
        """The name of its type."""
        return TYPE_NAMES.get(self.type, f"type {self.type}")

    @property
    def sender(self) -> str:
        """sourcePortIdentity, as ptp4l prints it."""
        return f"{identity_text(self.clock)}-{self.port}"


class Timed(Message):
    """A message with one timestamp behind its header: Sync, Delay_Req, Follow_Up (13.6, 13.7)."""

    __hdr__ = HEADER + TIMESTAMP

    @property
    def time(self) -> int:
        """The timestamp in nanoseconds (5.3.3)."""
        return ((self.seconds_high << 32) | self.seconds) * SECOND + self.nanoseconds

    def set_time(self, nanoseconds: int) -> None:
        """Sets the timestamp."""
        seconds, self.nanoseconds = divmod(nanoseconds, SECOND)
        self.seconds_high, self.seconds = divmod(seconds, 1 << 32)


class DelayResp(Timed):
    """Delay_Resp (13.8): the timestamp is when the request arrived, then whose request it was."""

    __hdr__ = HEADER + TIMESTAMP + (("requester", "8s", bytes(8)), ("requester_port", "H", 0))


CLASSES: dict[int, type[Message]] = {
    SYNC: Timed,
    DELAY_REQ: Timed,
    FOLLOW_UP: Timed,
    DELAY_RESP: DelayResp,
}


def read(octets: bytes) -> Message | None:
    """The message that the octets begin with: none where they are fewer than its layout has."""
    if not octets:
        return None
    try:
        return CLASSES.get(octets[0] & 0x0F, Message)(octets)
    except dpkt.UnpackError:
        return None


def identity_text(octets: bytes) -> str:
    """A clock identity as six, four and six hex digits."""
    digits = octets.hex()
    return f"{digits[:6]}.{digits[6:10]}.{digits[10:]}"


def identity_octets(text: str) -> bytes | None:
    """The octets of a clock identity: none where the text is no identity."""
    digits = text.replace(".", "").replace(":", "").lower().removeprefix("0x")
    try:
        octets = bytes.fromhex(digits)
    except ValueError:
        return None
    return octets if len(octets) == 8 else None

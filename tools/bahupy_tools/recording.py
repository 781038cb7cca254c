"""What the captures of a device's ports hold, on one scale of ticks."""

from __future__ import annotations

from dataclasses import dataclass, field

from . import captures, ptp, unwrap
from .errors import ToolError

MAX_OCTETS = 1500


@dataclass
class Record:
    """PTP octets that came to a port, or that the device sent there itself."""

    port: int
    tick: int
    octets: bytes
    frame: int
    """The number of the frame in its capture."""
    message: ptp.Message | None

    def is_of(self, kind: int) -> bool:
        """Whether it is a message of a type."""
        return self.message is not None and self.message.type == kind


@dataclass
class Recording:
    """The records of all ports in the order of their ticks, with what was passed over."""

    records: list[Record]
    first_stamp: int
    """The stamp of the first PTP frame, in nanoseconds since 1970."""
    others: list[int] = field(default_factory=list)
    """How many frames of each port were no PTP."""
    disordered: list[int] = field(default_factory=list)
    """How many frames of each port stood behind a later one."""
    long: list[int] = field(default_factory=list)
    """How many frames of each port were empty, or longer than a record may be."""

    def of_port(self, port: int) -> list[Record]:
        """The records of one port."""
        return [record for record in self.records if record.port == port]


def read_captures(paths: list[str], command: str) -> Recording:
    """Reads one capture a port; ticks are stamps so far."""
    recording = Recording([], 0)
    for port, path in enumerate(paths, 1):
        read_one(recording, port, path, command)
    if not recording.records:
        raise ToolError("no PTP frame is in the captures")
    recording.records.sort(key=lambda record: (record.tick, record.port))
    recording.first_stamp = recording.records[0].tick
    return recording


def read_one(recording: Recording, port: int, path: str, command: str) -> None:
    """Adds the frames of one capture."""
    others = disordered = long = 0
    latest = 0
    for frame in captures.frames(path, command):
        octets = unwrap.payload(path, frame)
        if octets is None:
            others += 1
        elif not 1 <= len(octets) <= MAX_OCTETS:
            long += 1
        else:
            disordered += frame.stamp < latest
            latest = max(latest, frame.stamp)
            recording.records.append(
                Record(port, frame.stamp, octets, frame.number, ptp.read(octets))
            )
    recording.others.append(others)
    recording.disordered.append(disordered)
    recording.long.append(long)


def place(recording: Recording, first_tick: int, begin: int, end: int | None) -> None:
    """Turns stamps into ticks: the first frame from `begin` on is at the first tick.

    Begin and end are nanoseconds since the first frame of all captures.
    """
    kept = [
        record
        for record in recording.records
        if record.tick - recording.first_stamp >= begin
        and (end is None or record.tick - recording.first_stamp <= end)
    ]
    if not kept:
        raise ToolError("no PTP frame is in the part of the captures that was asked for")
    shift = first_tick - kept[0].tick
    for record in kept:
        record.tick += shift
    recording.first_stamp = kept[0].tick - shift
    recording.records = kept


def requesters(recording: Recording) -> set[bytes]:
    """The clocks whose requests the recorded Delay_Resp answer."""
    return {
        record.message.requester
        for record in recording.records
        if isinstance(record.message, ptp.DelayResp)
    }

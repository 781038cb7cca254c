"""The time of each master as its Syncs tell it at the ticks of the recording."""

from __future__ import annotations

from bisect import bisect_left
from dataclasses import dataclass

from . import ptp
from .recording import Record


LARGEST_DRIFT = 0.01


@dataclass
class MasterTime:
    """One master as one port heard it: ticks at which Syncs came, with the times that they told."""

    ticks: list[int]
    times: list[int]

    @property
    def rate(self) -> float:
        """How fast the master's time goes beside the ticks, from its first to its last Sync."""
        span = self.ticks[-1] - self.ticks[0]
        rate = (self.times[-1] - self.times[0]) / span if span > 0 else 1.0
        # Farther off no clock goes: the master's time was stepped meanwhile.
        return rate if abs(rate - 1.0) <= LARGEST_DRIFT else 1.0

    def nearest(self, places: list[int], value: int) -> int:
        """The index of the place that is nearest to a value."""
        index = bisect_left(places, value)
        if index == len(places):
            return index - 1
        if index and value - places[index - 1] < places[index] - value:
            return index - 1
        return index

    def tick_of(self, time: int) -> int:
        """The tick at which a Sync of that time would have come."""
        index = self.nearest(self.times, time)
        return self.ticks[index] + round((time - self.times[index]) / self.rate)

    def gained(self, nanoseconds: int) -> int:
        """How far the master's time goes on in so many ticks."""
        # The rate is near 1: the whole part stays exact, and only the rest is rounded.
        return nanoseconds + round(nanoseconds * (self.rate - 1.0))


def master_times(records: list[Record]) -> dict[tuple[int, bytes, int], MasterTime]:
    """The masters of all ports, by the port that heard and by the sender's clock and port."""
    waiting: dict[tuple, int] = {}
    found: dict[tuple[int, bytes, int], MasterTime] = {}
    for record in records:
        message = record.message
        if not isinstance(message, ptp.Timed) or message.type not in (ptp.SYNC, ptp.FOLLOW_UP):
            continue
        master = (record.port, message.clock, message.port)
        if message.type == ptp.SYNC and message.flags & ptp.TWO_STEP:
            waiting[(*master, message.sequence)] = record.tick
            continue
        tick = record.tick
        if message.type == ptp.FOLLOW_UP:
            tick = waiting.pop((*master, message.sequence), -1)
        if tick >= 0:
            known = found.setdefault(master, MasterTime([], []))
            known.ticks.append(tick)
            known.times.append(message.time + message.correction // ptp.CORRECTION_UNIT)
    return {master: in_order(known) for master, known in found.items()}


def in_order(known: MasterTime) -> MasterTime:
    """The same with times that rise: what a stepped master said before its step is out."""
    ticks: list[int] = []
    times: list[int] = []
    for tick, time in zip(known.ticks, known.times):
        if times and time <= times[-1]:
            ticks.clear()
            times.clear()
        ticks.append(tick)
        times.append(time)
    return MasterTime(ticks, times)

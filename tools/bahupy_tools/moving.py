"""Recorded answers to requests of the real device, moved to the requests of the replay."""

from __future__ import annotations

from bisect import bisect_left
from dataclasses import dataclass, field

from . import ptp
from .master_time import MasterTime, master_times
from .recording import Record
from .transcript import Event, Transcript


@dataclass(frozen=True)
class Request:
    """A Delay_Req of the replay."""

    port: int
    tick: int
    sequence: int
    clock: bytes
    port_number: int
    parent: str
    """Whom the replay followed then."""


@dataclass
class Moved:
    """What became of the recorded answers."""

    records: list[Record] = field(default_factory=list)
    """Those that were moved, each with the octets that it has now."""
    no_request: int = 0
    """Answers left out, since the replay asked nothing of their sender."""
    farther: int = 0
    """Answers left out, since another one is nearer to the same request."""
    guessed: int = 0
    """Answers whose request is in no capture."""
    farthest: int = 0
    """The longest way in nanoseconds from a real request to that of the replay."""


def requests_of(transcript: Transcript) -> list[Request]:
    """All requests of a replay, in their order."""
    found: list[Request] = []
    parent = ""
    for event in transcript.events:
        parent = event.parent or parent
        found.extend(requests_in(event, parent))
    return found


def requests_in(event: Event, parent: str) -> list[Request]:
    """The requests that one event sent."""
    found = []
    for sent in event.sent:
        message = ptp.read(sent.octets)
        if message is not None and message.type == ptp.DELAY_REQ:
            found.append(
                Request(
                    sent.port, event.tick, message.sequence, message.clock, message.port, parent
                )
            )
    return found


@dataclass(frozen=True)
class Exchange:
    """A recorded answer with the tick at which its request went out."""

    answer: Record
    asked: int
    is_guess: bool


def exchanges(records: list[Record], device: bytes, path_delay: int) -> list[Exchange]:
    """The recorded answers to the device, each with when it was asked for."""
    masters = master_times(records)
    asked: dict[tuple[int, int], int] = {}
    found = []
    for record in records:
        message = record.message
        if message is None:
            continue
        if message.type == ptp.DELAY_REQ and message.clock == device:
            asked[(record.port, message.sequence)] = record.tick
        elif isinstance(message, ptp.DelayResp) and message.requester == device:
            tick = asked.get((record.port, message.sequence))
            if tick is not None:
                found.append(Exchange(record, tick, False))
            else:
                known = masters.get((record.port, message.clock, message.port))
                found.append(Exchange(record, guess(record, known, path_delay), True))
    return found


def guess(record: Record, known: MasterTime | None, path_delay: int) -> int:
    """When a request went out that no capture has, by its arrival and the master's Syncs."""
    if known is None:
        return record.tick - 2 * path_delay
    # A Sync of that time would have come one path delay after it; the request left one before.
    return min(known.tick_of(record.message.time), record.tick) - 2 * path_delay


def move(records: list[Record], found: list[Exchange], requests: list[Request]) -> Moved:
    """Moves each answer behind the nearest request that the replay made of its sender."""
    masters = master_times(records)
    asked = Asked(requests)
    moved = Moved()
    best: dict[Request, Exchange] = {}
    for exchange in found:
        request = asked.nearest(exchange)
        if request is None:
            moved.no_request += 1
            continue
        other = best.get(request)
        if other is not None:
            moved.farther += 1
        if other is None or way(exchange, request) < way(other, request):
            best[request] = exchange
    for request, exchange in best.items():
        message = exchange.answer.message
        known = masters.get((request.port, message.clock, message.port))
        moved.records.append(answered(exchange, request, known))
        moved.guessed += exchange.is_guess
        moved.farthest = max(moved.farthest, way(exchange, request))
    return moved


def way(exchange: Exchange, request: Request) -> int:
    """How far an answer is moved."""
    return abs(request.tick - exchange.asked)


class Asked:
    """The requests of the replay, by the port that sent them and by whom it followed then."""

    def __init__(self, requests: list[Request]) -> None:
        self.of: dict[tuple[int, str], tuple[list[int], list[Request]]] = {}
        for request in sorted(requests, key=lambda one: one.tick):
            ticks, own = self.of.setdefault((request.port, request.parent), ([], []))
            ticks.append(request.tick)
            own.append(request)

    def nearest(self, exchange: Exchange) -> Request | None:
        """The nearest request of the answer's port, sent while the replay followed its sender."""
        answer = exchange.answer
        ticks, own = self.of.get((answer.port, answer.message.sender), ([], []))
        place = bisect_left(ticks, exchange.asked)
        beside = own[max(place - 1, 0) : place + 1]
        return min(beside, key=lambda one: way(exchange, one), default=None)


def answered(exchange: Exchange, request: Request, known: MasterTime | None) -> Record:
    """The answer as it would have come to the request of the replay."""
    message = ptp.DelayResp(exchange.answer.octets)
    shift = request.tick - exchange.asked
    message.set_time(message.time + (known.gained(shift) if known else shift))
    message.sequence = request.sequence
    message.requester = request.clock
    message.requester_port = request.port_number
    turnaround = max(exchange.answer.tick - exchange.asked, 0)
    return Record(
        request.port,
        request.tick + turnaround,
        bytes(message),
        exchange.answer.frame,
        message,
    )

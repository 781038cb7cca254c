"""A transcript as its lines say it. `docs/FORMATS.md` has the form; nothing is judged here."""

from __future__ import annotations

from dataclasses import dataclass, field

from .errors import ToolError
from .progress import Progress

HEAD = "bc-transcript 1"


@dataclass(slots=True)
class Sent:
    """A frame that a port sent."""

    line: int
    port: int
    octets: bytes


@dataclass(slots=True)
class Event:
    """One entry: its input, and the words of its effects. Lines count from 1."""

    line: int
    number: int
    moment: int
    actor: str
    """`port`, `clock` or `query`."""
    index: int
    """The number of the port or the clock; of a query 0."""
    kind: str
    """The input: `timer`, `frame`, `down`, `up`, `report`, `turn`, `sampled` or `query`."""
    tick: int
    words: list[str]
    """What stands behind the tick of the input."""
    effects: list[tuple[int, list[str]]] = field(default_factory=list)
    """Each effect's line and words; `printed` stands for a printed line of an answer."""

    @property
    def parent(self) -> str | None:
        """The parent that it set."""
        for _, words in self.effects:
            if words[0] == "parent":
                return words[1]
        return None

    @property
    def sent(self) -> list[Sent]:
        """The frames that it sent."""
        return [
            Sent(line, int(words[1]), bytes.fromhex(words[2]))
            for line, words in self.effects
            if words[0] == "send"
        ]

    @property
    def fate(self) -> str:
        """What became of its frame."""
        for _, words in self.effects:
            if words[0] == "fate":
                return words[1]
        return ""


@dataclass(slots=True)
class Entry:
    """One entry of a clock's log: an order, or a change with its tick, step and frequency."""

    line: int
    number: int
    kind: str
    generation: int
    controller: int
    tick: int = 0
    step: int = 0
    frequency: int = 0


@dataclass(slots=True)
class Clock:
    """A clock: how it opened, and its log."""

    line: int
    index: int
    time: int
    drift: int
    log: list[Entry] = field(default_factory=list)


@dataclass
class Transcript:
    """A whole transcript, with its lines as they stand."""

    lines: list[str]
    events: list[Event]
    clocks: list[Clock]


def read_transcript(octets: bytes, command: str) -> Transcript:
    """Reads a transcript; the first line that has no form of one is named."""
    lines = octets.decode("ascii", "replace").split("\n")
    if lines and lines[-1] == "":
        lines.pop()
    if not lines or lines[0] != HEAD:
        raise ToolError(f"this is no transcript: its first line is not '{HEAD}'")
    transcript = Transcript(lines, [], [])
    progress = Progress(command, "reading the transcript", len(lines))
    for number, line in enumerate(lines[1:], 2):
        try:
            take_line(transcript, number, line)
        except (ValueError, IndexError):
            raise ToolError(f"line {number} of the transcript has no form of one") from None
        if number % 4096 == 0:
            progress.at(number)
    progress.end()
    if not lines[-1].startswith("end "):
        raise ToolError("the transcript is cut: it has no last line 'end'")
    return transcript


def take_line(transcript: Transcript, number: int, line: str) -> None:
    """Takes one line behind those before it."""
    if line.startswith("    "):
        transcript.events[-1].effects.append((number, ["printed", line[4:]]))
    elif line.startswith("  "):
        transcript.events[-1].effects.append((number, checked_effect(line.split())))
    else:
        words = line.split()
        if words[0] == "event":
            transcript.events.append(event_of(number, words))
        elif words[0] == "clock":
            clock = Clock(number, int(words[1]), int(words[2]), int(words[3]))
            transcript.clocks.append(clock)
        elif words[0] == "log":
            transcript.clocks[-1].log.append(entry_of(number, words))
        elif words[0] != "end":
            raise ValueError(line)


NUMBERS_OF = {"send": 1, "order": 3, "measure": 5, "state": 1}
"""How many numbers stand behind the words of an effect."""


def checked_effect(words: list[str]) -> list[str]:
    """The words of an effect, whose numbers and octets are such."""
    for word in words[1 : 1 + NUMBERS_OF.get(words[0], 0)]:
        int(word)
    if words[0] in ("send", "answer"):
        bytes.fromhex(words[-1])
    if words[0] in ("state", "send") and len(words) < (4 if words[0] == "state" else 3):
        raise ValueError(words[0])
    return words


def event_of(number: int, words: list[str]) -> Event:
    """An event from the words of its line."""
    actor = words[3]
    if actor == "query":
        return Event(
            number, int(words[1]), int(words[2]), actor, 0, actor, int(words[4]), words[5:]
        )
    if actor not in ("port", "clock"):
        raise ValueError(actor)
    if words[5] == "frame":
        bytes.fromhex(words[7])
    return Event(
        number,
        int(words[1]),
        int(words[2]),
        actor,
        int(words[4]),
        words[5],
        int(words[6]),
        words[7:],
    )


def entry_of(number: int, words: list[str]) -> Entry:
    """A log's entry from the words of its line."""
    entry = Entry(number, int(words[2]), words[3], int(words[4]), int(words[5]))
    if entry.kind == "change":
        entry.tick, entry.step, entry.frequency = (int(word) for word in words[6:9])
    elif entry.kind != "order":
        raise ValueError(entry.kind)
    return entry

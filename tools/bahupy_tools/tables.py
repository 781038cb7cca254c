"""The tables of a page: what each port did, generations, refusals, Announces, queries."""

from __future__ import annotations

from collections import Counter
from dataclasses import dataclass, field

from . import ptp
from .charts import COPIES, SECOND, UNIT
from .transcript import Event, Transcript

MOST_ROWS = 400
"""A table shows so many rows; the rest stands in the transcript."""

REASONS = {
    "superseded": "generation {0} steered the clock by then",
    "spent": "the clock's log was full",
}


@dataclass
class Table:
    """A table: a row begins with its line of the transcript, or 0 where it has none."""

    id: str
    title: str
    note: str
    heads: list[str]
    rows: list[tuple[int, list[str]]] = field(default_factory=list)
    hidden: int = 0

    def add(self, line: int, *cells: object) -> None:
        """Adds a row, or counts it where the table is full."""
        if len(self.rows) < MOST_ROWS:
            self.rows.append((line, [str(cell) for cell in cells]))
        else:
            self.hidden += 1


@dataclass
class PortSummary:
    """What a port did in the whole run."""

    state: str = "LISTENING"
    changes: int = 0
    heard: Counter = field(default_factory=Counter)
    sent: Counter = field(default_factory=Counter)
    measures: int = 0
    offset: float | None = None
    delay: float | None = None


@dataclass
class Run:
    """A run, gathered for its tables."""

    ports: dict[int, PortSummary] = field(default_factory=dict)
    announces: dict[tuple[int, str], Counter] = field(default_factory=dict)
    outcomes: Counter = field(default_factory=Counter)
    generations: Table = field(default_factory=lambda: Table(
        "generations", "Generations",
        "Each order of a clock to its controller, in the order in which they were given.",
        ["time in s", "generation", "clock", "is steered by"]))
    refused: Table = field(default_factory=lambda: Table(
        "refused", "Refused adjustments", "What a clock did not take, and why.",
        ["time in s", "who asked", "asked", "refused because"]))
    queries: Table = field(default_factory=lambda: Table(
        "asked", "Queries and answers", "Each query with the lines that print its answers.",
        ["time in s", "query", "answers"]))


def moment_text(nanoseconds: int) -> str:
    """A moment in seconds."""
    whole, rest = divmod(nanoseconds, SECOND)
    return f"{whole}.{rest:09d}"


def controller_text(ctrl: int) -> str:
    """Who a controller is."""
    if ctrl == 0:
        return "nobody"
    return f"clock {ctrl - COPIES}, which it copies" if ctrl >= COPIES else f"port {ctrl}"


def tables_of(transcript: Transcript) -> list[Table]:
    """The tables of a transcript that have rows."""
    run = Run()
    for event in transcript.events:
        if event.actor == "port":
            take_port(run, event)
        elif event.kind == "sampled":
            take_outcome(run, event, event.words[10:], f"follower of clock {event.index}")
        elif event.kind == "query":
            take_query(run.queries, event)
        take_effects(run, event)
    tables = [
        ports_table(run), run.generations, outcomes_table(run), run.refused,
        announces_table(run), run.queries,
    ]
    return [table for table in tables if table.rows]


def take_port(run: Run, event: Event) -> None:
    """Counts an event of a port."""
    port = run.ports.setdefault(event.index, PortSummary())
    if event.kind == "frame":
        message = ptp.read(bytes.fromhex(event.words[0]))
        port.heard[message.name if message else "unreadable"] += 1
        if message is not None and message.type == ptp.ANNOUNCE:
            fates = run.announces.setdefault((event.index, message.sender), Counter())
            fates[event.fate] += 1
    elif event.kind == "report":
        take_outcome(run, event, event.words[1:], f"port {event.index}")


def take_effects(run: Run, event: Event) -> None:
    """Counts what an event told."""
    for line, words in event.effects:
        if words[0] == "state":
            port = run.ports.setdefault(int(words[1]), PortSummary())
            port.state = words[3]
            port.changes += 1
        elif words[0] == "order":
            run.generations.add(line, moment_text(event.moment), words[2], f"clock {words[1]}",
                                controller_text(int(words[3])))
        elif words[0] == "measure":
            port = run.ports.setdefault(event.index, PortSummary())
            port.measures += 1
            port.offset, port.delay = int(words[3]) / UNIT, int(words[4]) / UNIT
        elif words[0] == "send":
            message = ptp.read(bytes.fromhex(words[2]))
            port = run.ports.setdefault(int(words[1]), PortSummary())
            port.sent[message.name if message else "unreadable"] += 1


def take_outcome(run: Run, event: Event, words: list[str], who: str) -> None:
    """Counts what a servo asked and what became of it."""
    length = {"unlocked": 1, "jump": 3, "locked": 2}[words[0]]
    asked, outcome = asked_text(words), words[length]
    run.outcomes[(who, words[0], outcome)] += 1
    if outcome in REASONS:
        reason = REASONS[outcome].format(words[length + 1])
        run.refused.add(event.line, moment_text(event.moment), who, asked, reason)


def asked_text(words: list[str]) -> str:
    """What an action asks for."""
    if words[0] == "jump":
        return f"a step of {int(words[1]):,} ns, frequency {int(words[2]) / UNIT:,.3f} ppb"
    if words[0] == "locked":
        return f"frequency {int(words[1]) / UNIT:,.3f} ppb"
    return "nothing"


def take_query(table: Table, event: Event) -> None:
    """A query with its answers, or why it made no request."""
    said = []
    for _, words in event.effects:
        if words[0] == "printed":
            said.append(words[1])
        elif words[0] == "asked":
            reason = {"action": "it asks for no GET", "unknown": "no such name",
                      "target": "no such target"}.get(words[1], words[1])
            said.append(f"no request: {reason}")
    table.add(event.line, moment_text(event.moment), " ".join(event.words),
              "\n".join(said) or "no answer")


def counted(counter: Counter) -> str:
    """Names with their counts."""
    return ", ".join(f"{count:,} {name}" for name, count in sorted(counter.items())) or "none"


def value_text(value: float | None) -> str:
    """A value in nanoseconds."""
    return "none" if value is None else f"{value:,.3f} ns"


def ports_table(run: Run) -> Table:
    """What each port did."""
    table = Table(
        "ports", "Ports", "What each port did in the whole run.",
        ["port", "state at the end", "changes of state", "frames received", "frames sent",
         "measures", "last offset", "last delay"])
    for number, port in sorted(run.ports.items()):
        table.add(0, f"port {number}", port.state, f"{port.changes:,}", counted(port.heard),
                  counted(port.sent), f"{port.measures:,}", value_text(port.offset),
                  value_text(port.delay))
    return table


def outcomes_table(run: Run) -> Table:
    """What servos asked, counted."""
    table = Table(
        "outcomes", "Adjustments",
        "What each servo asked of its clock, and how often it was taken or refused.",
        ["who asked", "steps taken", "frequencies taken", "asked for nothing",
         "refused: a newer generation", "refused: log full"])
    for who in sorted({key[0] for key in run.outcomes}):
        count = {key[1:]: number for key, number in run.outcomes.items() if key[0] == who}
        table.add(0, who, count.get(("jump", "changed"), 0), count.get(("locked", "changed"), 0),
                  count.get(("unlocked", "none"), 0), ends_in(count, "superseded"),
                  ends_in(count, "spent"))
    return table


def ends_in(count: dict[tuple[str, str], int], outcome: str) -> int:
    """How many had an outcome."""
    return sum(number for (_, found), number in count.items() if found == outcome)


def announces_table(run: Run) -> Table:
    """How many Announces of each sender had which fate."""
    fates = sorted({fate for counter in run.announces.values() for fate in counter})
    table = Table(
        "senders", "Announces received, by sender and fate",
        "A fate is what became of a frame: an Announce that counts is kept.",
        ["port", "sender", *fates])
    for (port, sender), counter in sorted(run.announces.items()):
        table.add(0, f"port {port}", sender, *(f"{counter[fate]:,}" for fate in fates))
    return table

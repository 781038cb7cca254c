"""The charts of a transcript as columns of numbers, for the page and for the pictures."""

from __future__ import annotations

from dataclasses import dataclass, field

from . import ptp
from .progress import Progress
from .transcript import Event, Transcript

UNIT = 65_536
SECOND = 1_000_000_000
COPIES = 128
"""Controllers from here on copy a clock: this and the number of the clock."""

STATE_COLOURS = {
    "LISTENING": "#b8bcc4",
    "PRE_MASTER": "#9ecae9",
    "MASTER": "#2f6fb3",
    "PASSIVE": "#8e6bbf",
    "UNCALIBRATED": "#f0a030",
    "SLAVE": "#3a9a4d",
    "FAULTY": "#d03b3b",
    "INITIALIZING": "#dddddd",
    "DISABLED": "#777777",
}
ADJUSTMENTS = (
    ("stepped", "#d95f02", "triangle"),
    ("frequency set", "#3a9a4d", "dot"),
    ("asked for nothing", "#b8bcc4", "dot"),
    ("refused: a newer generation steers the clock", "#d03b3b", "cross"),
    ("refused: the clock's log is full", "#7a1fa2", "cross"),
)
FATE_COLOURS = {
    "kept": "#3a9a4d",
    "sent": "#2f6fb3",
    "own": "#8e6bbf",
    "far": "#f0a030",
    "alternate": "#c7a200",
    "crowded": "#d95f02",
    "asleep": "#b8bcc4",
}
DROPPED_COLOUR = "#d03b3b"
PORT_COLOURS = (
    "#2f6fb3", "#d95f02", "#3a9a4d", "#8e6bbf", "#d03b3b", "#0e9aa7", "#c7a200", "#e377c2",
    "#6b4f3a", "#5b8c00", "#3f51b5", "#b35806", "#555555",
)
"""Of ports, by their number."""

CLOCK_COLOURS = ("#444b57", "#a64d79", "#00796b", "#8a6d1d", "#5c6bc0", "#7b4a2d")
"""Of clocks, by their number."""


def in_order(name: str) -> list[tuple[int, str]]:
    """What a name is sorted by."""
    return [(int(part), "") if part.isdigit() else (-1, part) for part in name.split()]


def colour_of(name: str) -> str:
    """The colour of a port or a clock, which is the same in all charts."""
    kind, number = name.split()[:2]
    if kind == "port":
        return PORT_COLOURS[(int(number) - 1) % len(PORT_COLOURS)]
    return CLOCK_COLOURS[int(number) % len(CLOCK_COLOURS)]


@dataclass
class Chart:
    """One chart: bars or marks in lanes, or curves. Columns have one place for each thing drawn."""

    id: str
    title: str
    note: str
    form: str
    """`bars`, `marks` or `curves`."""
    axis: str
    names: list[str] = field(default_factory=list)
    """The lanes, or the curves."""
    kinds: list[tuple[str, str, str]] = field(default_factory=list)
    """What a colour stands for: name, colour, shape."""
    time: list[int] = field(default_factory=list)
    """The moment in nanoseconds."""
    end: list[int] = field(default_factory=list)
    """Of bars, the moment at which each ends."""
    which: list[int] = field(default_factory=list)
    """The number of the lane or the curve."""
    kind: list[int] = field(default_factory=list)
    value: list[float | None] = field(default_factory=list)
    """Of curves, the value in the axis' unit, or none where the curve is broken; of bars, a
    generation to show, or -1."""
    line: list[int] = field(default_factory=list)
    """The line of the transcript."""

    def name(self, name: str) -> int:
        """The number of a lane or a curve, which is added where it is new."""
        if name not in self.names:
            self.names.append(name)
        return self.names.index(name)

    def kind_of(self, name: str, colour: str, shape: str = "dot") -> int:
        """The number of a kind, which is added where it is new."""
        for number, kind in enumerate(self.kinds):
            if kind[0] == name:
                return number
        self.kinds.append((name, colour, shape))
        return len(self.kinds) - 1

    def add(
        self, time: int, which: int, line: int, kind: int = 0, value: float | None = -1
    ) -> None:
        """Adds one thing to draw."""
        self.time.append(time)
        self.which.append(which)
        self.line.append(line)
        self.kind.append(kind)
        self.value.append(value)

    def sort_names(self) -> None:
        """Puts lanes or curves into the order of their names, with numbers by their value."""
        order = sorted(range(len(self.names)), key=lambda place: in_order(self.names[place]))
        new = {old: place for place, old in enumerate(order)}
        self.names = [self.names[old] for old in order]
        self.which = [new[old] for old in self.which]
        if self.form == "curves":
            self.kinds = [(name, colour_of(name), "line") for name in self.names]

    def close_bars(self, end: int) -> None:
        """Lets each bar end where the next one of its lane begins, and the last ones at the end."""
        next_of: dict[int, int] = {}
        self.end = [0] * len(self.time)
        for place in range(len(self.time) - 1, -1, -1):
            self.end[place] = next_of.get(self.which[place], end)
            next_of[self.which[place]] = self.time[place]


@dataclass
class Charts:
    """All charts of a transcript."""

    states: Chart
    offsets: Chart
    delays: Chart
    frequencies: Chart
    steering: Chart
    adjustments: Chart
    announces: Chart
    copies: Chart
    queries: Chart
    end: int = 0
    """The last moment."""

    def all(self) -> list[Chart]:
        """The charts that have something to draw, in the order of the page."""
        ordered = (
            self.states, self.offsets, self.delays, self.frequencies, self.copies, self.steering,
            self.adjustments, self.announces, self.queries,
        )
        return [chart for chart in ordered if chart.time]


def empty_charts() -> Charts:
    """The charts before anything is drawn."""
    return Charts(
        Chart("states", "State of each port",
              "Each bar is a state, in the colours that follow.", "bars", "port"),
        Chart("offsets", "Offset from the master",
              "offsetFromMaster at each measure of a port that follows: above 0 its clock is "
              "ahead.",
              "curves", "offset in ns"),
        Chart("delays", "Mean path delay",
              "The median of the last delays of a port, at each of its measures.",
              "curves", "delay in ns"),
        Chart("frequencies", "Frequency asked of each clock",
              "After each change in a clock's log; 0 is the clock's own pace.",
              "curves", "frequency in ppb"),
        Chart("steering", "Who steers which clock",
              "Each bar is the port that steers a clock, or the clock that it copies; its number "
              "is the generation of the order.", "bars", "clock"),
        Chart("adjustments", "Adjustments taken and refused",
              "What servos asked of their clocks, and what became of it.", "marks", "who asked"),
        Chart("announces", "Announces by sender and fate",
              "Announces that a port heard, by their sender, and those that it sent itself.",
              "marks", "port and sender"),
        Chart("copies", "Offset of a clock from the clock that it copies",
              "At each sample of a follower: above 0 its clock is ahead of the other.",
              "curves", "offset in ns"),
        Chart("queries", "Queries", "When each was asked; the table below has the answers.",
              "marks", "queries"),
    )


def charts_of(transcript: Transcript, command: str) -> Charts:
    """All charts of a transcript."""
    charts = empty_charts()
    lanes(charts, transcript)
    progress = Progress(command, "gathering what is drawn", len(transcript.events))
    changed: dict[tuple[int, int], int] = {}
    stamps: dict[int, tuple[int, int]] = {}
    for event in transcript.events:
        take_effects(charts, event, stamps)
        take_input(charts, event, stamps, changed)
        progress.at(event.number)
    progress.end()
    last = transcript.events[-1].moment if transcript.events else 0
    charts.end = max(last, 1)
    take_logs(charts, transcript, changed)
    charts.states.close_bars(charts.end)
    charts.steering.close_bars(charts.end)
    for chart in charts.all():
        chart.sort_names()
    return charts


def lanes(charts: Charts, transcript: Transcript) -> None:
    """The lanes of ports and clocks, in rising numbers, with the state that each port began in."""
    ports = {event.index for event in transcript.events if event.actor == "port"}
    began = charts.states.kind_of("LISTENING", STATE_COLOURS["LISTENING"])
    for port in sorted(ports):
        lane = charts.states.name(f"port {port}")
        charts.states.add(0, lane, 1, began)
    for clock in transcript.clocks:
        charts.steering.name(f"clock {clock.index}")


def take_effects(charts: Charts, event: Event, stamps: dict[int, tuple[int, int]]) -> None:
    """Draws what an event told."""
    for line, words in event.effects:
        if words[0] == "state":
            chart = charts.states
            kind = chart.kind_of(words[3], STATE_COLOURS.get(words[3], "#000000"))
            chart.add(event.moment, chart.name(f"port {words[1]}"), line, kind)
        elif words[0] == "order":
            take_order(charts.steering, event.moment, line, *(int(word) for word in words[1:4]))
        elif words[0] == "measure":
            take_measure(charts, event, line, words, stamps)
        elif words[0] == "send":
            take_sent(charts.announces, event, line, words)


def take_measure(
    charts: Charts, event: Event, line: int, words: list[str], stamps: dict[int, tuple[int, int]]
) -> None:
    """Draws a measure; the stamps are the generation and the clock of each port's last one."""
    stamp = (int(words[1]), int(words[2]))
    is_broken = stamps.get(event.index, stamp) != stamp
    stamps[event.index] = stamp
    for chart, value in ((charts.offsets, words[3]), (charts.delays, words[4])):
        curve = chart.name(f"port {event.index}")
        if is_broken:
            # Between two generations the port did not follow, and no line joins its measures.
            chart.add(event.moment, curve, line, value=None)
        chart.add(event.moment, curve, line, value=int(value) / UNIT)


def take_order(chart: Chart, moment: int, line: int, clock: int, gen: int, ctrl: int) -> None:
    """Draws who steers a clock from an order on."""
    if ctrl == 0:
        kind = chart.kind_of("nobody", "#e4e6ea")
    elif ctrl >= COPIES:
        colour = colour_of(f"clock {ctrl - COPIES}")
        kind = chart.kind_of(f"copies clock {ctrl - COPIES}", colour)
    else:
        kind = chart.kind_of(f"port {ctrl}", colour_of(f"port {ctrl}"))
    chart.add(moment, chart.name(f"clock {clock}"), line, kind, gen)


def take_sent(chart: Chart, event: Event, line: int, words: list[str]) -> None:
    """Draws an Announce that a port sent."""
    message = ptp.read(bytes.fromhex(words[2]))
    if message is not None and message.type == ptp.ANNOUNCE:
        lane = chart.name(f"port {words[1]} sends")
        chart.add(event.moment, lane, line, chart.kind_of("sent", FATE_COLOURS["sent"]))


def take_input(
    charts: Charts, event: Event, stamps: dict[int, tuple[int, int]],
    changed: dict[tuple[int, int], int],
) -> None:
    """Draws what an event was."""
    if event.kind == "frame":
        take_announce(charts.announces, event)
    elif event.kind == "report":
        take_outcome(charts, event, event.words[1:], f"port {event.index}",
                     stamps.get(event.index, (0, 0))[1], changed)
    elif event.kind == "sampled":
        # The generation, the source, and two readings with their words stand before the action.
        clock, source = event.index, event.words[1]
        offset = int(event.words[8]) - int(event.words[4])
        curve = charts.copies.name(f"clock {clock} from clock {source}")
        charts.copies.add(event.moment, curve, event.line, value=offset)
        take_outcome(charts, event, event.words[10:], f"follower of clock {clock}", clock, changed)
    elif event.kind == "query":
        chart = charts.queries
        asked = any(words[0] == "answer" for _, words in event.effects)
        kind = chart.kind_of(*(("answered", "#3a9a4d") if asked else ("no answer", "#d03b3b")))
        chart.add(event.moment, chart.name("queries"), event.line, kind)


def take_announce(chart: Chart, event: Event) -> None:
    """Draws an Announce that a port heard."""
    message = ptp.read(bytes.fromhex(event.words[0]))
    if message is None or message.type != ptp.ANNOUNCE:
        return
    fate = event.fate
    lane = chart.name(f"port {event.index} hears {message.sender}")
    kind = chart.kind_of(fate, FATE_COLOURS.get(fate, DROPPED_COLOUR),
                         "dot" if fate in FATE_COLOURS else "cross")
    chart.add(event.moment, lane, event.line, kind)


def take_outcome(
    charts: Charts, event: Event, words: list[str], who: str, clock: int,
    changed: dict[tuple[int, int], int],
) -> None:
    """Draws what a servo asked and what became of it."""
    length = {"unlocked": 1, "jump": 3, "locked": 2}[words[0]]
    outcome = words[length]
    if outcome == "changed":
        changed[(clock, int(words[length + 1]))] = event.line
        kind = 0 if words[0] == "jump" else 1
    else:
        kind = {"none": 2, "superseded": 3, "spent": 4}[outcome]
    chart = charts.adjustments
    number = chart.kind_of(*ADJUSTMENTS[kind])
    chart.add(event.moment, chart.name(f"{who} on clock {clock}" if who[0] == "p" else who),
              event.line, number)


def take_logs(
    charts: Charts, transcript: Transcript, changed: dict[tuple[int, int], int]
) -> None:
    """Draws the frequency of each clock after each of its changes."""
    chart = charts.frequencies
    rows = []
    for clock in transcript.clocks:
        curve = chart.name(f"clock {clock.index}")
        rows.append((0, curve, clock.line, 0.0))
        for entry in clock.log:
            if entry.kind == "change":
                line = changed.get((clock.index, entry.number), entry.line)
                rows.append((entry.tick, curve, line, entry.frequency / UNIT))
    for tick, curve, line, frequency in sorted(rows):
        chart.add(tick, curve, line, value=frequency)

"""From captures and a ptp4l.conf to a scenario."""

from __future__ import annotations

import argparse
from dataclasses import dataclass, field

from . import ptp
from .errors import ToolError, say
from .master_time import master_times
from .moving import Moved, exchanges, move, requests_of
from .program import replay
from .ptp4l_conf import Conf, base_name, read_conf
from .recording import Record, Recording, place, read_captures, requesters
from .scenario import SECOND, Scenario, seconds
from .transcript import read_transcript

NAME = "import"
DEFAULT_IDENTITIES = ("020000.fffe.000001", "020000.fffe.000002")
MOST_EVENTS = 131_071
LAST_TICK = 100_000 * SECOND


@dataclass
class Import:
    """One import under way: what was given, and what is known so far."""

    given: argparse.Namespace
    conf: Conf
    recording: Recording
    device: bytes | None = None
    """The clock identity of the device whose ports were captured."""
    warnings: list[str] = field(default_factory=list)
    scenario: Scenario = field(default_factory=Scenario)

    def tell(self, text: str) -> None:
        """A line of the scenario's comment."""
        self.scenario.comments.append(text)

    def warn(self, text: str) -> None:
        """The same, and on standard error too."""
        self.tell(text)
        self.warnings.append(text)


def scenario_of(given: argparse.Namespace) -> bytes:
    """The scenario text that the words of the command ask for."""
    conf = read_conf(given.conf) if given.conf else Conf()
    recording = read_captures(given.captures, NAME)
    work = Import(given, conf, recording)
    work.tell("Made from captures: " + ", ".join(map(base_name, given.captures)) + ".")
    place(recording, given.first_tick, given.begin, given.end)
    tell_ticks(work)
    find_device(work)
    take_options(work)
    take_ports(work)
    all_records = recording.records
    leave_own_frames(work)
    open_clocks(work)
    take_records(work, all_records)
    text = work.scenario.text()
    for warning in work.warnings:
        say(NAME, warning)
    return text


def tell_ticks(work: Import) -> None:
    """Says which tick the first frame has, and what else was read and passed over."""
    recording, given = work.recording, work.given
    first = recording.records[0]
    work.tell(
        f"Tick {first.tick} ns is the first PTP frame, frame {first.frame} of port {first.port}; "
        f"its stamp is {recording.first_stamp} ns since 1970. All ports have one scale."
    )
    for port, path in enumerate(given.captures, 1):
        counts = (
            (recording.others[port - 1], "that are no PTP"),
            (recording.disordered[port - 1], "behind a later one, put in order"),
        )
        said = [f"{count:,} frames {what}" for count, what in counts if count]
        work.tell(f"Port {port} is {base_name(path)}" + (": " if said else "") + ", ".join(said))
        if recording.long[port - 1]:
            work.warn(
                f"port {port}: {recording.long[port - 1]} PTP frames have no octets, "
                "or more than 1,500, and are left out"
            )
    if recording.records[-1].tick > LAST_TICK:
        raise ToolError("the captures last longer than 100,000 s; --to takes a part of them")
    if len(recording.records) > MOST_EVENTS:
        work.warn(
            f"{len(recording.records):,} frames are more than the {MOST_EVENTS:,} events that "
            "a run may have; --from and --to take a part of them"
        )


def find_device(work: Import) -> None:
    """Which clock the device is: as given, as the configuration says, or by who was answered."""
    text = work.given.identity or work.conf.identity
    if text is not None:
        work.device = ptp.identity_octets(text)
        if work.device is None:
            raise ToolError(f"{text} is no clock identity")
        work.tell(f"The device is {ptp.identity_text(work.device)}, as was given.")
        return
    found = requesters(work.recording)
    if len(found) == 1:
        work.device = found.pop()
        name = ptp.identity_text(work.device)
        work.tell(f"The device is {name}, whose requests the Delay_Resp answer.")
    elif found:
        work.warn("which clock the device is can't be told, so no frame is left out as its own; "
                  "--identity says it")
    else:
        work.tell("Which clock the device is was not said, and no Delay_Resp tells it.")


def take_options(work: Import) -> None:
    """The options of [global], with the identity of the replay's clock."""
    options = work.scenario.options
    options["clockIdentity"] = own_identity(work)
    options.update(work.conf.options)
    if work.given.clocks:
        options["boundary_clock_jbod"] = "1"
    for left in work.conf.left:
        work.warn(f"does not carry over from the configuration: {left}")


def own_identity(work: Import) -> str:
    """The device's identity, unless recorded answers to it could be taken for answers to ours."""
    if work.device is None:
        return DEFAULT_IDENTITIES[0]
    name = ptp.identity_text(work.device)
    if work.given.move or work.device not in requesters(work.recording):
        return name
    own = next(other for other in DEFAULT_IDENTITIES if other != name)
    tell = work.warn if work.conf.identity else work.tell
    tell(f"the replay's clock is {own}, so that no Delay_Resp to the device seems its own")
    return own


def take_ports(work: Import) -> None:
    """The ports, in the order of the captures, with the options of the configuration's ports."""
    count = len(work.given.captures)
    named = work.conf.ports
    if named and len(named) != count:
        work.warn(f"the configuration has {len(named)} ports, and the captures {count}")
    clocks = work.given.clocks or [0] * count
    if not work.given.clocks and work.scenario.options.get("boundary_clock_jbod") == "1":
        clocks = list(range(count))
        work.tell("Each port is on a clock of its own; --clocks says which share one.")
    if len(clocks) != count:
        raise ToolError(f"--clocks names {len(clocks)} clocks, and there are {count} ports")
    for port in range(1, count + 1):
        name, options = named[port - 1] if port <= len(named) else ("", {})
        if name:
            work.tell(f"Port {port} has the options of [{name}].")
        work.scenario.ports.append((clocks[port - 1], options))


def leave_own_frames(work: Import) -> None:
    """Leaves out what the device sent itself."""
    if work.device is None:
        return
    kept = [record for record in work.recording.records if not is_of(record, work.device)]
    left = len(work.recording.records) - len(kept)
    if left:
        work.tell(f"{left:,} frames that the device sent itself are left out.")
    work.recording.records = kept


def is_of(record: Record, clock: bytes) -> bool:
    """Whether a clock sent it."""
    return record.message is not None and record.message.clock == clock


def open_clocks(work: Import) -> None:
    """The opening time and the drift of each clock."""
    given = work.given
    count = max(clock for clock, _ in work.scenario.ports) + 1
    first = first_sync(work.recording.records)
    if given.time is None:
        times = [opening_time(work, first)] * count
    else:
        times = each(given.time, count, "--time")
        work.tell("The clocks open at the times that were given.")
    if any(time < 0 for time in times):
        raise ToolError("a clock would open before time 0; --time says when")
    drifts = each(given.drift, count, "--drift")
    work.tell("Drift of the clocks: " + ", ".join(f"{drift} ppb" for drift in drifts) + ".")
    work.scenario.clocks = list(zip(times, drifts))


def opening_time(work: Import, first: tuple[int, int, int] | None) -> int:
    """When the clocks open: at the time of the first Sync, or at that of the captures."""
    offset = work.given.offset
    if first is None:
        time = work.recording.first_stamp - work.recording.records[0].tick
        work.tell(f"No Sync tells a time: the clocks open by the captures' stamps, {offset:+} ns.")
        return time + offset
    port, tick, time = first
    work.tell(
        f"The clocks open so that the first Sync, at tick {tick} on port {port}, "
        f"finds them {offset:+} ns from its time."
    )
    return time - tick + offset


def first_sync(records: list[Record]) -> tuple[int, int, int] | None:
    """The port, the tick and the time of the first Sync."""
    known = master_times(records)
    firsts = [(found.ticks[0], port, found.times[0]) for (port, *_), found in known.items()]
    if not firsts:
        return None
    tick, port, time = min(firsts)
    return port, tick, time


def each(values: list[int], count: int, option: str) -> list[int]:
    """A value for each clock: one for all, or as many as there are clocks."""
    if len(values) == 1:
        return values * count
    if len(values) != count:
        raise ToolError(f"{option} has {len(values)} values, and there are {count} clocks")
    return values


def take_records(work: Import, all_records: list[Record]) -> None:
    """The records of the scenario, with the answers moved where that was asked for."""
    records = work.recording.records
    answers = [record for record in records if record.is_of(ptp.DELAY_RESP)]
    set_duration(work, all_records)
    work.scenario.records = records
    if not work.given.move:
        if answers:
            work.warn(
                f"{len(answers):,} Delay_Resp answer requests of the device, not those of the "
                "replay: they stay unmatched, so no offset is measured; --move-delay-resp moves "
                "them"
            )
        return
    if work.device is None:
        raise ToolError("to move the Delay_Resp, the device has to be known: --identity says it")
    move_answers(work, all_records)


def set_duration(work: Import, records: list[Record]) -> None:
    """How long the run lasts: as given, or to the whole second behind the last record."""
    duration = work.given.duration
    if duration is None:
        duration = min((records[-1].tick // SECOND + 1) * SECOND, LAST_TICK)
    work.scenario.options["duration"] = seconds(duration)


def move_answers(work: Import, all_records: list[Record]) -> None:
    """Runs the program without the answers, and puts each behind the nearest request it made."""
    device = work.device
    records = work.recording.records
    found = exchanges(all_records, device, work.given.path_delay)
    answers = {id(exchange.answer) for exchange in found}
    others = [record for record in records if id(record) not in answers]
    work.scenario.records = others
    text = work.scenario.text()
    transcript = read_transcript(replay(text, work.given.bahupy, NAME), NAME)
    moved = move(all_records, found, requests_of(transcript))
    work.scenario.records = others + moved.records
    tell_moved(work, len(found), moved)


def tell_moved(work: Import, count: int, moved: Moved) -> None:
    """Says what was moved, and how."""
    work.tell(
        f"{len(moved.records):,} of {count:,} Delay_Resp were moved, each behind the nearest "
        "Delay_Req of the replay, with the delay and the turnaround of its real exchange;"
    )
    work.tell(
        f"sequence and requester are those of the replay; the longest way is "
        f"{seconds(moved.farthest)} s."
    )
    if moved.farther:
        work.tell(f"{moved.farther:,} are left out: another was nearer to the same Delay_Req.")
    if moved.no_request:
        work.tell(f"{moved.no_request:,} are left out: the replay asked nothing of their sender.")
    if moved.guessed:
        work.warn(
            f"{moved.guessed:,} Delay_Resp answer requests that are in no capture: the path delay "
            f"is taken as {work.given.path_delay} ns, as --path-delay says"
        )
    if not moved.records:
        work.warn("no Delay_Resp was moved, so no offset is measured")

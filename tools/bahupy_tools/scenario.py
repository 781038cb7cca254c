"""The text of a scenario. `docs/FORMATS.md` has its form."""

from __future__ import annotations

from dataclasses import dataclass, field

from .recording import Record

SECOND = 1_000_000_000


@dataclass
class Scenario:
    """What a scenario text says."""

    comments: list[str] = field(default_factory=list)
    options: dict[str, str] = field(default_factory=dict)
    clocks: list[tuple[int, int]] = field(default_factory=list)
    """Opening time in nanoseconds and drift in ppb of each clock."""
    ports: list[tuple[int, dict[str, str]]] = field(default_factory=list)
    """The clock of each port, and its options."""
    records: list[Record] = field(default_factory=list)

    def text(self) -> bytes:
        """The octets of the text."""
        lines = [f"# {printable(comment)}" for comment in self.comments]
        lines.append("[global]")
        lines.extend(f"{name} {value}" for name, value in self.options.items())
        for index, (time, drift) in enumerate(self.clocks):
            lines += [f"[clock {index}]", f"time {time}", f"drift {drift}"]
        for number, (clock, options) in enumerate(self.ports, 1):
            lines.append(f"[port {number} clock {clock}]" if clock else f"[port {number}]")
            lines.extend(f"{name} {value}" for name, value in options.items())
        lines.append("[records]")
        ordered = sorted(self.records, key=lambda record: record.tick)
        lines.extend(f"{record.tick} {record.port} {record.octets.hex()}" for record in ordered)
        return ("\n".join(lines) + "\n").encode("ascii")


def printable(text: str) -> str:
    """A comment in the octets that a scenario takes, on one line."""
    return "".join(letter if " " <= letter <= "~" else "?" for letter in text)


def seconds(nanoseconds: int) -> str:
    """Nanoseconds as a scenario's seconds, without zeros that say nothing."""
    whole, rest = divmod(nanoseconds, SECOND)
    return f"{whole}.{rest:09d}".rstrip("0").rstrip(".") if rest else str(whole)

"""Makes long transcripts of the right form, for tests of what reads them. No program made them."""

from __future__ import annotations

SECOND = 1_000_000_000
CLOCK = "020000fffe000001"


def announce(sender: int, sequence: int) -> str:
    """An Announce in hex."""
    return (
        f"0b12004000000008{'0' * 24}000a00fffe{sender:06x}0001{sequence % 65536:04x}0501"
        "00000000000000000000002500640621ffff80000a00fffe00000100" "0020"
    )


def sync(sender: int, sequence: int) -> str:
    """A Sync in hex."""
    return f"0012002c{'0' * 32}000a00fffe{sender:06x}0001{sequence % 65536:04x}0000{'0' * 20}"


def request(port: int, sequence: int) -> str:
    """A Delay_Req in hex."""
    return f"0112002c{'0' * 32}{CLOCK}{port:04x}{sequence % 65536:04x}017f{'0' * 20}"


def transcript(events: int, ports: int, clocks: int = 1, period: int = 400) -> str:
    """A transcript with so many events."""
    lines = ["bc-transcript 1"]
    logs: list[list[str]] = [[] for _ in range(clocks)]
    tick = number = 0
    follower, generation = 1, 0

    def event(text: str, *effects: str) -> None:
        nonlocal number
        number += 1
        lines.append(f"event {number} {tick} {text}")
        lines.extend(f"  {effect}" for effect in effects)

    while number + 6 * ports <= events:
        tick += SECOND // 8
        turn = tick // (SECOND // 8)
        if turn % period == 1:
            generation += 1
            old, follower = follower, 1 + turn // period % ports
            logs[0].append(f"order {generation} {follower}")
            effects = [f"order 0 {generation} {follower}", f"parent 000a00.fffe.{follower:06x}-1"]
            if generation > 1:
                effects.insert(0, f"state {old} SLAVE PRE_MASTER")
                effects.insert(0, f"state {follower} LISTENING SLAVE")
            event(f"port {follower} frame {tick} {announce(follower, turn)} seen 1 {tick} 0",
                  "fate kept", *effects)
        for port in range(1, ports + 1):
            fate = "kept" if (turn + port) % 17 else "crowded"
            event(f"port {port} frame {tick} {announce(port, turn)} seen 1 {tick} 0",
                  f"fate {fate}")
        offset = (turn * 7919 % 2001 - 1000) * 65536
        event(f"port {follower} frame {tick} {sync(follower, turn)} seen 1 {tick} 0",
              "fate paired", f"measure {generation} 0 {offset} {65536 * 500} {tick}")
        if turn % 97:
            logs[0].append(f"change {generation} {follower} {tick} 0 {-offset}")
            outcome = f"locked {-offset} changed {len(logs[0])}"
        else:
            outcome = f"locked {-offset} superseded {generation + 1} {len(logs[0])}"
        event(f"port {follower} report {tick} {generation} {outcome}")
        event(f"port {follower} timer {tick} delay_request seen 1 {tick} 0",
              f"send {follower} {request(follower, turn)}")
    while number < events:
        tick += SECOND
        event(f"query {tick} GET PRIORITY1", f"answer {'0d12' + '0' * 60}",
              "  020000.fffe.000001-0 seq 0 RESPONSE MANAGEMENT PRIORITY1", "  priority1 128")
    for clock, log in enumerate(logs):
        lines.append(f"clock {clock} 0 0")
        lines.extend(f"log {clock} {place} {entry}" for place, entry in enumerate(log, 1))
    lines.append(f"end {number}")
    return "\n".join(lines) + "\n"

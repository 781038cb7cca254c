"""The frames of a transcript as a capture: pcapng, in nanoseconds, an interface a port."""

from __future__ import annotations

from dataclasses import dataclass

from dpkt import ethernet, pcapng

from . import ptp
from .progress import Progress
from .transcript import Event, Transcript

NAME = "export"
NANOSECONDS = bytes([9])
LONGEST = 65_535

IF_NAME, IF_DESCRIPTION, IF_TSRESOL = 2, 3, 9
EPB_FLAGS = 2
INBOUND = (1).to_bytes(4, "little")
OUTBOUND = (2).to_bytes(4, "little")

PTP_ETHERTYPE = 0x88F7
MULTICAST = bytes.fromhex("011b19000000")
"""The address of PTP over Ethernet (annex F)."""


def option(code: int, octets: bytes) -> pcapng.PcapngOptionLE:
    """One option of a block."""
    return pcapng.PcapngOptionLE(code=code, data=octets)


def closed(options: list[pcapng.PcapngOptionLE]) -> list[pcapng.PcapngOptionLE]:
    """Options with their end behind them."""
    return [*options, pcapng.PcapngOptionLE(code=pcapng.PCAPNG_OPT_ENDOFOPT, data=b"")]


def capture_of(transcript: Transcript, start: int = 0) -> bytes:
    """The whole capture; `start` is the time of tick 0 in nanoseconds since 1970."""
    ports = sorted(ports_of(transcript))
    places = {port: place for place, port in enumerate(ports)}
    parts = [bytes(pcapng.SectionHeaderBlockLE())]
    parts.extend(interface(port) for port in ports)
    progress = Progress(NAME, "writing frames", len(transcript.events))
    for event in transcript.events:
        for frame in frames_of(event):
            parts.append(packet(places[frame.port], event, frame, start))
        progress.at(event.number)
    progress.end()
    return b"".join(parts)


def ports_of(transcript: Transcript) -> set[int]:
    """All ports that a transcript names."""
    named = {event.index for event in transcript.events if event.actor == "port"}
    return named | {sent.port for event in transcript.events for sent in event.sent}


def interface(port: int) -> bytes:
    """The block of a port."""
    block = pcapng.InterfaceDescriptionBlockLE(
        snaplen=LONGEST,
        opts=closed(
            [
                option(IF_NAME, f"port{port}".encode()),
                option(IF_DESCRIPTION, f"port {port} of the replay".encode()),
                option(IF_TSRESOL, NANOSECONDS),
            ]
        ),
    )
    return bytes(block)


@dataclass(frozen=True)
class Passed:
    """A frame that a port received or sent."""

    port: int
    octets: bytes
    line: int
    was_sent: bool


def frames_of(event: Event) -> list[Passed]:
    """The frames of an event."""
    found = []
    if event.kind == "frame":
        found.append(Passed(event.index, bytes.fromhex(event.words[0]), event.line, False))
    found.extend(Passed(sent.port, sent.octets, sent.line, True) for sent in event.sent)
    return found


def packet(place: int, event: Event, frame: Passed, start: int) -> bytes:
    """The block of one frame, with the line of the transcript as its comment."""
    stamp = start + event.tick
    fate = "" if frame.was_sent else f", {event.fate}"
    way = "sent" if frame.was_sent else "received"
    comment = f"{way} in event {event.number}, line {frame.line} of the transcript{fate}"
    flags = OUTBOUND if frame.was_sent else INBOUND
    block = pcapng.EnhancedPacketBlockLE(
        iface_id=place,
        ts_high=stamp >> 32,
        ts_low=stamp & 0xFFFFFFFF,
        pkt_data=framed(frame.octets),
        opts=closed(
            [option(pcapng.PCAPNG_OPT_COMMENT, comment.encode()), option(EPB_FLAGS, flags)]
        ),
    )
    return bytes(block)


def framed(octets: bytes) -> bytes:
    """PTP octets in an Ethernet frame, from an address that is made of the sender's identity."""
    message = ptp.read(octets)
    clock = message.clock if message is not None else bytes(8)
    source = bytes([clock[0] & 0xFE, *clock[1:3], *clock[5:8]])
    frame = ethernet.Ethernet(dst=MULTICAST, src=source, type=PTP_ETHERTYPE, data=octets)
    return bytes(frame)

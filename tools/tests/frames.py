"""Makes captures for the tests: masters with Syncs, Announces and answers to a device."""

from __future__ import annotations

import struct

from dpkt import ip, ip6, pcap, pcapng, udp

from bahupy_tools import ptp

SECOND = 1_000_000_000
START = 1_796_069_287_000_000_000
MASTER = bytes.fromhex("000a00fffe000001")
DEVICE = bytes.fromhex("0200aafffe000001")


def announce(sequence: int, clock: bytes = MASTER) -> bytes:
    """An Announce of a master of priority 100."""
    head = ptp.Message(sdo_and_type=0x0B, length=64, clock=clock, port=1, sequence=sequence,
                       control=5, interval=1)
    body = bytes(10) + struct.pack(">HBB", 37, 0, 100) + bytes.fromhex("0621ffff80")
    return bytes(head) + body + clock + struct.pack(">HB", 0, 0x20)


def timed(kind: int, sequence: int, time: int, clock: bytes = MASTER, flags: int = 0) -> bytes:
    """A Sync, a Delay_Req or a Follow_Up."""
    message = ptp.Timed(sdo_and_type=kind, length=44, flags=flags, clock=clock, port=1,
                        sequence=sequence)
    message.set_time(time)
    return bytes(message)


def response(sequence: int, time: int, requester: bytes = DEVICE) -> bytes:
    """A Delay_Resp of the master."""
    message = ptp.DelayResp(sdo_and_type=9, length=54, clock=MASTER, port=1, sequence=sequence,
                            requester=requester, requester_port=1)
    message.set_time(time)
    return bytes(message)


def over_udp(octets: bytes, six: bool = False, port: int = 319, tags: int = 0) -> bytes:
    """PTP octets in a frame, over UDP."""
    datagram = udp.UDP(sport=port, dport=port, data=octets)
    datagram.ulen = len(datagram)
    if six:
        packet = ip6.IP6(src=bytes(15) + b"\1", dst=bytes(15) + b"\2", nxt=17, hlim=1,
                         data=datagram, plen=len(datagram))
    else:
        packet = ip.IP(src=b"\x0a\1\0\1", dst=b"\xe0\0\1\x81", p=17, data=datagram,
                       len=20 + len(datagram))
    return framed(0x86DD if six else 0x0800, bytes(packet), tags)


def over_ethernet(octets: bytes, tags: int = 0) -> bytes:
    """PTP octets in a frame, over Ethernet."""
    return framed(0x88F7, octets, tags)


def framed(kind: int, octets: bytes, tags: int) -> bytes:
    """Octets in an Ethernet frame with so many VLAN tags, filled to the least length."""
    outer = [0x8100] if tags == 1 else [0x88A8, 0x8100] if tags == 2 else []
    head = bytes.fromhex("011b19000000") + bytes.fromhex("020000000001")
    for tag in outer:
        head += struct.pack(">HH", tag, 7)
    return (head + struct.pack(">H", kind) + octets).ljust(60, b"\0")


def write_pcap(path: object, frames: list[tuple[int, bytes]], nano: bool = True) -> None:
    """Writes a pcap of stamps and frames."""
    unit = 1 if nano else 1000
    magic = pcap.TCPDUMP_MAGIC_NANO if nano else pcap.TCPDUMP_MAGIC
    with open(path, "wb") as file:
        file.write(bytes(pcap.LEFileHdr(magic=magic, linktype=pcap.DLT_EN10MB)))
        for stamp, octets in frames:
            head = pcap.LEPktHdr(tv_sec=stamp // SECOND, tv_usec=stamp % SECOND // unit,
                                 caplen=len(octets), len=len(octets))
            file.write(bytes(head) + octets)


def write_pcapng(path: object, frames: list[tuple[int, bytes]], digits: int = 9) -> None:
    """Writes a pcapng of stamps and frames, with so many digits of a second."""
    end = pcapng.PcapngOptionLE(code=0, data=b"")
    kind = pcapng.PcapngOptionLE(code=9, data=bytes([digits]))
    with open(path, "wb") as file:
        file.write(bytes(pcapng.SectionHeaderBlockLE()))
        file.write(bytes(pcapng.InterfaceDescriptionBlockLE(snaplen=65535, opts=[kind, end])))
        for stamp, octets in frames:
            ticks = stamp // 10 ** (9 - digits)
            file.write(bytes(pcapng.EnhancedPacketBlockLE(
                ts_high=ticks >> 32, ts_low=ticks & 0xFFFFFFFF, pkt_data=octets)))


def exchange(seconds: int = 12, with_requests: bool = True, delay: int = 700) -> list:
    """What a device's port saw of one master, with the device's own requests where asked for.

    A request leaves 0.4 s behind each second and takes `delay` ns; its answer comes back after
    50,000 ns. The master's time is that of the capture and 5 s more.
    """
    ahead = 5 * SECOND
    frames = []
    for second in range(seconds):
        now = START + second * SECOND
        if second % 2 == 0:
            frames.append((now, over_udp(announce(second // 2), port=320)))
        sent = now + 100_000_000
        frames.append((sent + delay, over_udp(timed(0, second, sent + ahead))))
        asked = now + 400_000_000
        if with_requests:
            frames.append((asked, over_udp(timed(1, second, 0, DEVICE))))
        answer = response(second, asked + delay + ahead)
        frames.append((asked + 2 * delay + 50_000, over_udp(answer, port=320)))
    return frames



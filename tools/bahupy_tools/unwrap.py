"""From a captured frame to the PTP octets in it: Ethernet, VLAN tags, UDP over IPv4 and IPv6."""

from __future__ import annotations

import dpkt
from dpkt import ethernet, ip, ip6, sll, udp

from .captures import Frame
from .errors import ToolError

PTP_PORTS = (319, 320)
PTP_ETHERTYPE = 0x88F7
ETHERNET = 1
COOKED = 113

OUTGOING = 4
"""The packet type of a Linux cooked frame that the machine sent itself."""


def payload(path: str, frame: Frame) -> bytes | None:
    """The PTP octets of a frame: none where it is no PTP.

    A frame that the capture cut is refused where it is PTP, or may be.
    """
    outer = link(path, frame)
    if outer is None:
        return None
    if kind(outer) == PTP_ETHERTYPE:
        found = bytes(outer.data)
    else:
        found = datagram(outer.data)
        if found is None:
            if frame.is_cut and not is_other_udp(outer.data):
                refuse_cut(path, frame)
            return None
    if frame.is_cut:
        refuse_cut(path, frame)
    return found


def kind(outer: dpkt.Packet) -> int:
    """The Ethertype of what is inside, behind all VLAN tags."""
    tags = getattr(outer, "vlan_tags", None)
    if tags:
        return tags[-1].type
    return outer.ethtype if isinstance(outer, sll.SLL) else outer.type


def link(path: str, frame: Frame) -> dpkt.Packet | None:
    """The outermost layer: none where the octets are none."""
    try:
        if frame.link == ETHERNET:
            return ethernet.Ethernet(frame.octets)
        if frame.link == COOKED:
            cooked = sll.SLL(frame.octets)
            return None if cooked.type == OUTGOING else cooked
    except (dpkt.UnpackError, IndexError, ValueError) as error:
        if frame.is_cut:
            refuse_cut(path, frame)
        raise ToolError(f"{path}: frame {frame.number} is no Ethernet frame") from error
    raise ToolError(f"{path}: frame {frame.number} has link type {frame.link}, not Ethernet")


def datagram(packet: object) -> bytes | None:
    """The octets of a UDP datagram to or from a port of PTP."""
    if not isinstance(packet, (ip.IP, ip6.IP6)) or not isinstance(packet.data, udp.UDP):
        return None
    if packet.data.dport not in PTP_PORTS and packet.data.sport not in PTP_PORTS:
        return None
    # What stands behind the datagram fills the frame up to Ethernet's least length.
    return bytes(packet.data.data)[: max(packet.data.ulen - 8, 0)]


def is_other_udp(packet: object) -> bool:
    """Whether a packet is known to be other traffic, however much of it was kept."""
    if not isinstance(packet, (ip.IP, ip6.IP6)):
        return not isinstance(packet, bytes)
    return not isinstance(packet.data, bytes) or getattr(packet, "p", 17) != 17


def refuse_cut(path: str, frame: Frame) -> None:
    """Refuses a frame of which the capture kept too little."""
    raise ToolError(
        f"{path}: frame {frame.number} was captured in part: "
        f"{len(frame.octets)} of {frame.whole} octets"
    )

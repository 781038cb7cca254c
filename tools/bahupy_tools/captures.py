"""Capture files: the frames of a pcap or a pcapng, each with its stamp in whole nanoseconds."""

from __future__ import annotations

import gzip
import io
import logging
import zlib
from collections.abc import Iterator
from dataclasses import dataclass

# Scapy warns of what it skips, on standard error; here a fault is told by the number of its frame.
logging.getLogger("scapy").setLevel(logging.CRITICAL)

from scapy.error import Scapy_Exception  # noqa: E402
from scapy.utils import RawPcapNgReader, RawPcapReader  # noqa: E402

from .errors import ToolError  # noqa: E402
from .progress import Progress  # noqa: E402

PCAP_MAGIC = (b"\xa1\xb2\xc3\xd4", b"\xd4\xc3\xb2\xa1", b"\xa1\xb2\x3c\x4d", b"\x4d\x3c\xb2\xa1")
PCAPNG_MAGIC = b"\x0a\x0d\x0d\x0a"
SECOND = 1_000_000_000


@dataclass(frozen=True)
class Frame:
    """One frame of a capture."""

    number: int
    """Its number in the file, from 1, as Wireshark counts."""
    stamp: int
    """When it was captured, in nanoseconds since 1970."""
    link: int
    """The link type of its interface."""
    octets: bytes
    whole: int
    """How many octets it had on the wire."""

    @property
    def is_cut(self) -> bool:
        """Whether the capture kept fewer octets than the frame had."""
        return len(self.octets) < self.whole


class PcapFrames(RawPcapReader):
    """A pcap, with the place where its last record begins."""

    began = 0

    def _read_packet(self, size: int = 1 << 20) -> tuple:
        self.began = self.f.tell()
        return super()._read_packet(size)


class PcapngFrames(RawPcapNgReader):
    """A pcapng, with the place where its last block begins."""

    began = 0

    def _read_block(self, size: int = 1 << 20) -> tuple | None:
        self.began = self.f.tell()
        return super()._read_block(size)


def load(path: str) -> bytes:
    """The octets of a capture file, unpacked where it is packed with gzip."""
    with open(path, "rb") as file:
        octets = file.read()
    if octets[:2] != b"\x1f\x8b":
        return octets
    try:
        return gzip.decompress(octets)
    except (EOFError, OSError, zlib.error) as error:
        raise ToolError(f"{path}: the packed file is broken: {error}") from error


def opened(path: str, octets: bytes) -> PcapFrames | PcapngFrames:
    """The reader of a file, by its first octets."""
    magic = octets[:4]
    if magic not in PCAP_MAGIC and magic != PCAPNG_MAGIC:
        raise ToolError(f"{path}: neither a pcap nor a pcapng")
    kind = PcapngFrames if magic == PCAPNG_MAGIC else PcapFrames
    try:
        return kind(io.BytesIO(octets))
    except (Scapy_Exception, EOFError) as error:
        raise ToolError(f"{path}: the head of the file is broken") from error


def frames(path: str, name: str) -> Iterator[Frame]:
    """All frames of a capture in the order of the file; `name` is the command that shows progress.

    A file that ends within a frame, or goes on with what is no frame, is refused with the number
    of that frame.
    """
    octets = load(path)
    reader = opened(path, octets)
    progress = Progress(name, f"reading {path}", len(octets))
    number = 0
    while True:
        number += 1
        try:
            data, meta = reader._read_packet()
        except EOFError:
            break
        except Exception as error:
            raise ToolError(f"{path}: frame {number} is broken: {error}") from error
        yield one_frame(path, reader, number, data, meta)
        progress.at(reader.f.tell())
    progress.end()
    if reader.began < len(octets):
        raise ToolError(f"{path}: the file is cut or broken at frame {number}")


def one_frame(
    path: str, reader: PcapFrames | PcapngFrames, number: int, data: bytes, meta: tuple
) -> Frame:
    """A frame from what scapy read."""
    if isinstance(reader, PcapngFrames):
        if meta.tshigh is None:
            raise ToolError(f"{path}: frame {number} has no stamp")
        ticks = (meta.tshigh << 32) + meta.tslow
        return Frame(number, ticks * SECOND // meta.tsresol, meta.linktype, data, meta.wirelen)
    if len(data) < meta.caplen:
        raise ToolError(
            f"{path}: the file is cut at frame {number}: {len(data)} of {meta.caplen} octets"
        )
    unit = 1 if reader.nano else 1000
    fraction = meta.usec * unit
    if fraction >= SECOND:
        raise ToolError(f"{path}: frame {number} is broken: its stamp is no time")
    stamp = meta.sec * SECOND + fraction
    return Frame(number, stamp, reader.linktype & 0x0FFFFFFF, data, meta.wirelen)

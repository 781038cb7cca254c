"""Captures that are cut or broken: the number of the frame, and nothing half written."""

from __future__ import annotations

import struct

import pytest
from conftest import run
from frames import START, announce, over_ethernet, over_udp, write_pcap, write_pcapng

FRAMES = [(START + place, over_udp(announce(place))) for place in range(3)]


def refused(tmp_path, octets: bytes, said: str) -> None:
    """The import of these octets fails with a line, and writes nothing."""
    path = tmp_path / "broken"
    path.write_bytes(octets)
    done = run("import", path, "-o", tmp_path / "out")
    assert done.returncode == 1
    assert said in done.stderr.decode()
    assert done.stderr.count(b"\n") == 1
    assert not (tmp_path / "out").exists() and done.stdout == b""


@pytest.mark.parametrize("write", (write_pcap, write_pcapng))
@pytest.mark.parametrize("less", (1, 5, 40, 100))
def test_a_file_that_ends_within_a_frame(tmp_path, write, less):
    write(tmp_path / "whole", FRAMES)
    refused(tmp_path, (tmp_path / "whole").read_bytes()[:-less], "frame 3")


def test_a_pcap_that_ends_within_the_head_of_a_frame(tmp_path):
    write_pcap(tmp_path / "whole", FRAMES)
    octets = (tmp_path / "whole").read_bytes()
    refused(tmp_path, octets[: 24 + 16 + 106 + 7], "cut or broken at frame 2")
    refused(tmp_path, octets[:24], "no PTP frame")
    refused(tmp_path, octets[:10], "head of the file")


def test_no_capture(tmp_path):
    refused(tmp_path, b"", "neither a pcap nor a pcapng")
    refused(tmp_path, b"[global]\n" * 9, "neither a pcap nor a pcapng")
    refused(tmp_path, b"\x1f\x8b" + bytes(20), "packed file is broken")
    done = run("import", tmp_path / "nowhere")
    assert done.returncode == 1 and b"No such file" in done.stderr


def test_a_block_of_wrong_length(tmp_path):
    write_pcapng(tmp_path / "whole", FRAMES)
    octets = bytearray((tmp_path / "whole").read_bytes())
    second = octets.index(over_udp(announce(1))) - 28
    octets[second + 4 : second + 8] = struct.pack("<I", 8)
    refused(tmp_path, bytes(octets), "frame 2")


@pytest.mark.parametrize("wrap", (over_udp, over_ethernet))
@pytest.mark.parametrize("kept", (10, 20, 40, 55))
def test_a_frame_that_was_captured_in_part(tmp_path, wrap, kept):
    octets = wrap(announce(0))
    whole = struct.pack("<IHHIIII", 0xA1B23C4D, 2, 4, 0, 0, kept, 1)
    whole += struct.pack("<IIII", 1, 0, kept, len(octets)) + octets[:kept]
    refused(tmp_path, whole, f"frame 1 was captured in part: {kept} of {len(octets)} octets")


def test_other_traffic_may_be_cut(tmp_path):
    other, good = over_udp(b"x" * 200, port=53), over_udp(announce(0))
    whole = struct.pack("<IHHIIII", 0xA1B23C4D, 2, 4, 0, 0, 96, 1)
    whole += struct.pack("<IIII", 1, 0, 96, len(other)) + other[:96]
    whole += struct.pack("<IIII", 1, 0, len(good), len(good)) + good
    (tmp_path / "a").write_bytes(whole)
    done = run("import", tmp_path / "a")
    assert done.returncode == 0, done.stderr


def test_a_link_that_is_no_ethernet(tmp_path):
    whole = struct.pack("<IHHIIII", 0xA1B23C4D, 2, 4, 0, 0, 96, 147)
    whole += struct.pack("<IIII", 1, 0, 4, 4) + b"1234"
    refused(tmp_path, whole, "frame 1 has link type 147")

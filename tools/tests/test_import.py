"""From captures to scenarios."""

from __future__ import annotations

import os
import re

import pytest
from conftest import TOOLS, run
from frames import (
    DEVICE, SECOND, START, announce, exchange, over_ethernet, over_udp, response, timed,
    write_pcap, write_pcapng,
)

from bahupy_tools import ptp
from bahupy_tools.program import replay

STAND_IN = {"BAHUPY": str(TOOLS / "tests" / "stand_in")}


def records(text: bytes) -> list[tuple[int, int, bytes]]:
    """The records of a scenario text: tick, port, octets."""
    lines = text.decode().split("[records]\n")[1].splitlines()
    return [(int(tick), int(port), bytes.fromhex(octets))
            for tick, port, octets in (line.split() for line in lines)]


def comments(text: bytes) -> str:
    """The comment lines of a scenario text."""
    return "\n".join(line for line in text.decode().splitlines() if line.startswith("#"))


WRAPS = {
    "udp": over_udp,
    "udp6": lambda octets: over_udp(octets, six=True),
    "ethernet": over_ethernet,
    "vlan udp": lambda octets: over_udp(octets, tags=1),
    "two tags udp6": lambda octets: over_udp(octets, six=True, tags=2),
    "vlan ethernet": lambda octets: over_ethernet(octets, tags=1),
    "two tags ethernet": lambda octets: over_ethernet(octets, tags=2),
}


@pytest.mark.parametrize("wrap", WRAPS)
def test_octets_are_found_in_each_wrapping(tmp_path, wrap):
    write_pcap(tmp_path / "a.pcap", [(START, WRAPS[wrap](announce(3)))])
    done = run("import", tmp_path / "a.pcap")
    assert done.returncode == 0, done.stderr
    (tick, port, octets), = records(done.stdout)
    assert (tick, port) == (0, 1)
    assert octets == announce(3)


@pytest.mark.parametrize("form", ("pcap ns", "pcap us", "pcapng ns", "pcapng us"))
def test_stamps_keep_their_digits(tmp_path, form):
    frames = [(START + 1, over_udp(announce(0))), (START + 1_234_567_891, over_udp(announce(1)))]
    path = tmp_path / "a"
    if form.startswith("pcapng"):
        write_pcapng(path, frames, 9 if form.endswith("ns") else 6)
    else:
        write_pcap(path, frames, form.endswith("ns"))
    done = run("import", path)
    assert done.returncode == 0, done.stderr
    wanted = 1_234_567_890 if form.endswith("ns") else 1_234_567_000
    assert [tick for tick, _, _ in records(done.stdout)] == [0, wanted]


def test_ports_have_one_scale_and_other_frames_are_counted(tmp_path):
    other = over_udp(b"x" * 30, port=53)
    write_pcap(tmp_path / "1", [(START + SECOND, over_udp(announce(0))), (START, other)])
    write_pcap(tmp_path / "2", [(START + 500_000_000, over_udp(announce(1)))])
    done = run("import", tmp_path / "1", tmp_path / "2", "--first-tick", "2.5")
    assert [(tick, port) for tick, port, _ in records(done.stdout)] == [
        (2_500_000_000, 2), (3_000_000_000, 1)]
    assert "Port 1 is 1: 1 frames that are no PTP" in comments(done.stdout)
    assert "Tick 2500000000 ns is the first PTP frame, frame 1 of port 2" in comments(done.stdout)


def test_frames_of_the_device_are_left_out(tmp_path):
    write_pcap(tmp_path / "a", exchange())
    done = run("import", tmp_path / "a")
    assert all(ptp.read(octets).clock != DEVICE for _, _, octets in records(done.stdout))
    assert "12 frames that the device sent itself are left out." in comments(done.stdout)
    # The replay's clock is another, so no recorded answer can be taken for an answer to it.
    assert b"clockIdentity 020000.fffe.000001\n" in done.stdout
    assert b"12 Delay_Resp answer requests of the device" in done.stderr


def test_a_device_that_is_not_told_leaves_all_frames(tmp_path):
    other = bytes.fromhex("0200bbfffe000001")
    frames = [(START, over_udp(announce(0))), (START, over_udp(response(0, START))),
              (START, over_udp(response(0, START, other)))]
    write_pcap(tmp_path / "a", frames)
    done = run("import", tmp_path / "a")
    assert b"can't be told" in done.stderr
    assert len(records(done.stdout)) == 3
    given = run("import", tmp_path / "a", "--move-delay-resp")
    assert given.returncode == 1 and given.stdout == b""


@pytest.mark.parametrize("with_requests", (True, False))
def test_answers_are_moved_to_the_requests_of_the_replay(tmp_path, with_requests):
    write_pcap(tmp_path / "a", exchange(with_requests=with_requests))
    done = run("import", tmp_path / "a", "--move-delay-resp", "--path-delay", "700", **STAND_IN)
    assert done.returncode == 0, done.stderr
    moved = [(tick, ptp.read(octets)) for tick, _, octets in records(done.stdout)
             if octets[0] & 15 == ptp.DELAY_RESP]
    # The requests of the replay are at 3 s to 12 s, those of the device at 0.4 s to 11.4 s.
    assert [message.sequence for _, message in moved] == list(range(9))
    first = START + 5 * SECOND
    for place, (tick, message) in enumerate(moved):
        asked = (place + 3) * SECOND
        assert abs(tick - (asked + 1_400 + 50_000)) <= 2
        assert abs(message.time - (first + asked + 700)) <= 2
        assert message.requester == DEVICE and message.requester_port == 1
    assert b"clockIdentity 0200aa.fffe.000001\n" in done.stdout
    assert "9 of 12 Delay_Resp were moved" in comments(done.stdout)
    assert (b"in no capture" in done.stderr) == (not with_requests)


def test_clocks_open_at_the_first_sync(tmp_path):
    write_pcap(tmp_path / "a", exchange())
    done = run("import", tmp_path / "a", "--offset", "-50000", "--drift", "5000")
    # At tick 100,000,700 a Sync of START and 5.1 s came.
    opening = START + 5 * SECOND - 700 - 50_000
    assert f"[clock 0]\ntime {opening}\ndrift 5000\n".encode() in done.stdout
    given = run("import", tmp_path / "a", "--time", "12", "--clocks", "0")
    assert b"time 12\n" in given.stdout


def test_a_part_of_the_captures(tmp_path):
    write_pcap(tmp_path / "a", exchange())
    done = run("import", tmp_path / "a", "--from", "2", "--to", "4", "--duration", "9.5")
    ticks = [tick for tick, _, _ in records(done.stdout)]
    assert ticks[0] == 0 and ticks[-1] == 2 * SECOND
    assert b"duration 9.5\n" in done.stdout
    assert run("import", tmp_path / "a", "--from", "99").returncode == 1


CONF = """# A boundary clock
[global]
clockIdentity 0200aa.fffe.000001
priority1 0x70
clockAccuracy 0x21
step_threshold 2e-5
max_frequency 0
boundary_clock_jbod 1
pi_proportional_const 0.25
tx_timestamp_timeout 10
delay_mechanism E2E
logSyncInterval -1
[eth1]
logAnnounceInterval 0
egressLatency 7
[eth2]
delay_mechanism P2P
[unicast_master_table]
table_id 1
"""


def test_a_configuration_carries_over(tmp_path):
    (tmp_path / "ptp4l.conf").write_text(CONF)
    for name in "12":
        write_pcap(tmp_path / name, [(START, over_udp(timed(0, 0, START)))])
    done = run("import", "--conf", tmp_path / "ptp4l.conf", tmp_path / "1", tmp_path / "2")
    assert done.returncode == 0, done.stderr
    text = done.stdout.decode()
    for line in ("clockIdentity 0200aa.fffe.000001", "priority1 112", "clockAccuracy 0x21",
                 "step_threshold 0.00002", "max_frequency 900000000", "boundary_clock_jbod 1",
                 "servo_kp 250", "logSyncInterval -1",
                 "[port 1]\nlogAnnounceInterval 0", "[port 2 clock 1]\n[records]"):
        assert line + "\n" in text
    for left in ("tx_timestamp_timeout 10 of [global]", "egressLatency 7 of [eth1]",
                 "delay_mechanism P2P of [eth2]", "table_id 1 of [unicast_master_table]"):
        told = f"does not carry over from the configuration: {left}"
        assert told in done.stderr.decode() and told in comments(done.stdout)
    assert "E2E" not in done.stderr.decode()


def test_faults_of_a_configuration_are_named(tmp_path):
    write_pcap(tmp_path / "a", [(START, over_udp(announce(0)))])
    for text, said in (("priority1 1\n", "line 1 stands before any section"),
                       ("[global]\npriority1\n", "line 2 has an option without a value")):
        (tmp_path / "conf").write_text(text)
        done = run("import", "--conf", tmp_path / "conf", tmp_path / "a")
        assert done.returncode == 1 and said in done.stderr.decode()


def test_a_program_that_fails_is_named(tmp_path):
    write_pcap(tmp_path / "a", exchange())
    words = (tmp_path / "a", "--move-delay-resp", "-o", tmp_path / "out")
    done = run("import", *words, BAHUPY="false")
    assert done.returncode == 1 and b"ended with status 1" in done.stderr
    assert not (tmp_path / "out").exists()


@pytest.mark.parametrize("name", ("rivals", "single"))
def test_real_captures(captures, name):
    paths = sorted((captures / name).glob("in.*.pcap"))
    done = run("import", *paths)
    assert done.returncode == 0, done.stderr
    assert "The device is 020000.fffe.000001" in comments(done.stdout)
    assert b"clockIdentity 020000.fffe.000002\n" in done.stdout
    assert {port for _, port, _ in records(done.stdout)} == set(range(1, len(paths) + 1))


@pytest.mark.parametrize("name", ("rivals", "single"))
def test_moved_answers_match_in_the_program(captures, name, tmp_path):
    """With the program itself, or the one that BAHUPY_REAL names; unproved it takes a minute."""
    program = os.environ.get("BAHUPY_REAL", str(TOOLS.parent / "bahupy"))
    paths = sorted((captures / name).glob("in.*.pcap"))
    done = run("import", *paths, "--move-delay-resp", BAHUPY=program)
    assert done.returncode == 0, done.stderr
    moved = int(re.search(r"# (\d+) of \d+ Delay_Resp were moved", comments(done.stdout))[1])
    transcript = replay(done.stdout, program, "test").decode()
    assert moved > 0 and transcript.count("\n  fate matched\n") == moved
    assert "\n  fate unmatched\n" not in transcript and "\n  measure " in transcript

"""From transcripts to captures, read by Wireshark's own tool."""

from __future__ import annotations

import subprocess

import pytest
from conftest import DATA, run
from frames import START

from bahupy_tools import captures, ptp, unwrap
from bahupy_tools.transcript import read_transcript

FIELDS = ("frame.time_epoch", "frame.interface_name", "frame.packet_flags_direction",
          "ptp.v2.messagetype", "ptp.v2.sequenceid", "frame.comment")


def tshark(path: object, *words: str) -> list[list[str]]:
    """What tshark tells of each frame; it has to read the file without complaint."""
    done = subprocess.run(["tshark", "-r", str(path), *words], capture_output=True, check=True)
    complaints = [line for line in done.stderr.decode().splitlines()
                  if "Running as user" not in line]
    assert complaints == []
    return [line.split("\t") for line in done.stdout.decode().splitlines()]


@pytest.mark.parametrize("name", ("port-locks", "two-clocks"))
def test_wireshark_reads_the_frames(tmp_path, name):
    text = (DATA / f"{name}.out").read_bytes()
    done = run("export", "-o", tmp_path / "a.pcapng", "--start", START, text=text)
    assert done.returncode == 0, done.stderr
    words = [word for field in FIELDS for word in ("-e", field)]
    rows = tshark(tmp_path / "a.pcapng", "-T", "fields", *words)
    wanted = []
    for event in read_transcript(text, "test").events:
        seconds, rest = divmod(START + event.tick, 1_000_000_000)
        stamp = f"{seconds}.{rest:09d}"
        frames = [(event.index, event.words[0], "0x00000001")] if event.kind == "frame" else []
        frames += [(sent.port, sent.octets.hex(), "0x00000002") for sent in event.sent]
        for port, octets, way in frames:
            message = ptp.read(bytes.fromhex(octets))
            wanted.append([stamp, f"port{port}", way, f"0x{message.type:02x}",
                           str(message.sequence)])
    assert [row[:5] for row in rows] == wanted
    assert tshark(tmp_path / "a.pcapng", "-Y", "_ws.malformed") == []


def test_comments_lead_to_lines(tmp_path):
    text = (DATA / "port-locks.out").read_bytes()
    run("export", "-o", tmp_path / "a.pcapng", text=text)
    rows = tshark(tmp_path / "a.pcapng", "-T", "fields", "-e", "frame.comment")
    lines = text.decode().splitlines()
    assert rows[0] == ["received in event 1, line 2 of the transcript, kept"]
    assert rows[3] == ["sent in event 4, line 12 of the transcript"]
    assert lines[1].startswith("event 1 ") and lines[11].startswith("  send 1 ")


def test_an_export_is_imported_again(tmp_path):
    text = (DATA / "port-locks.out").read_bytes()
    path = str(tmp_path / "a.pcapng")
    run("export", "-o", path, text=text)
    octets = [unwrap.payload(path, frame) for frame in captures.frames(path, "test")]
    events = read_transcript(text, "test").events
    received = [bytes.fromhex(event.words[0]) for event in events if event.kind == "frame"]
    sent = [frame.octets for event in events for frame in event.sent]
    assert sorted(octets) == sorted(received + sent)


@pytest.mark.parametrize("text, said", (
    (b"", "this is no transcript"),
    (b"bc-transcript 1\nevent 1 5 port 1 down 5\n", "the transcript is cut"),
    (b"bc-transcript 1\nevent 1 5 port\nend 1\n", "line 2 of the transcript has no form"),
    (b"bc-transcript 1\nevent 1 5 port 1 frame 5 0g seen 0 5 0\nend 1\n", "line 2"),
    (b"bc-transcript 1\n  send 1 00\nend 1\n", "line 2"),
))
def test_what_is_no_transcript_is_refused(tmp_path, text, said):
    for name in ("export", "report"):
        done = run(name, "-o", tmp_path / "out", text=text)
        assert done.returncode == 1 and said in done.stderr.decode()
        assert not (tmp_path / "out").exists()

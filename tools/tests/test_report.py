"""What a report draws and tabulates, without a browser."""

from __future__ import annotations

import time
from xml.etree import ElementTree

import made
from conftest import DATA, run

from bahupy_tools.charts import charts_of
from bahupy_tools.tables import tables_of
from bahupy_tools.transcript import read_transcript

PORT_LOCKS = (DATA / "port-locks.out").read_bytes()
TWO_CLOCKS = (DATA / "two-clocks.out").read_bytes()


def charts(octets: bytes):
    """The charts of a transcript."""
    return charts_of(read_transcript(octets, "test"), "test")


def drawn(chart) -> list[tuple]:
    """What is drawn: moment, lane or curve, kind or value."""
    told = chart.value if chart.form == "curves" else [chart.kinds[kind][0] for kind in chart.kind]
    return list(zip(chart.time, [chart.names[which] for which in chart.which], told))


def test_a_port_that_locks():
    found = charts(PORT_LOCKS)
    states = [(moment, name, kind) for moment, name, kind in drawn(found.states) if name == "port 1"]
    assert states == [(0, "port 1", "LISTENING"), (3_000_000_000, "port 1", "UNCALIBRATED"),
                      (6_500_000_000, "port 1", "SLAVE")]
    assert drawn(found.offsets) == [(4_500_000_000, "port 1", -50_000),
                                    (5_500_000_000, "port 1", -50_000),
                                    (6_500_000_000, "port 1", 0)]
    assert {value for _, _, value in drawn(found.delays)} == {1000}
    assert drawn(found.adjustments) == [
        (4_500_000_000, "port 1 on clock 0", "asked for nothing"),
        (5_500_000_000, "port 1 on clock 0", "stepped"),
        (6_500_000_000, "port 1 on clock 0", "frequency set")]
    assert drawn(found.steering) == [(3_000_000_000, "clock 0", "port 1")]
    assert found.steering.end == [8_000_000_000]
    announces = drawn(found.announces)
    assert announces.count((5_000_000_000, "port 1 hears 000a00.fffe.000001-1", "kept")) == 1
    assert announces[-1] == (8_000_000_000, "port 2 sends", "sent")


def test_lines_are_those_of_what_is_drawn():
    for octets in (PORT_LOCKS, TWO_CLOCKS):
        lines = octets.decode().splitlines()
        found = charts(octets)
        for line, (_, _, kind) in zip(found.states.line[2:], drawn(found.states)[2:]):
            assert lines[line - 1].startswith("  state ") and lines[line - 1].endswith(kind)
        for line in found.offsets.line:
            assert lines[line - 1].startswith("  measure ")
        for line in found.adjustments.line:
            assert " report " in lines[line - 1] or " sampled " in lines[line - 1]


def test_two_clocks():
    found = charts(TWO_CLOCKS)
    assert found.copies.names == ["clock 1 from clock 0"]
    assert ("clock 1", "copies clock 0") in [row[1:] for row in drawn(found.steering)]
    assert "follower of clock 1" in found.adjustments.names
    tables = {table.id: table for table in tables_of(read_transcript(TWO_CLOCKS, "test"))}
    asked = [cells[1] for _, cells in tables["asked"].rows]
    assert asked == ["GET PARENT_DATA_SET", "GET PORT_DATA_SET", "SET PRIORITY1 5"]
    assert "parentPortIdentity" in tables["asked"].rows[0][1][2]
    assert [cells[0] for _, cells in tables["ports"].rows] == ["port 1", "port 2"]


def test_refusals_have_their_reason():
    octets = made.transcript(600, 2).encode()
    tables = {table.id: table for table in tables_of(read_transcript(octets, "test"))}
    (line, cells), = tables["refused"].rows
    assert cells[1] == "port 1" and cells[2].startswith("frequency ")
    assert cells[3] == "generation 2 steered the clock by then"
    assert "superseded" in octets.decode().splitlines()[line - 1]
    fates = tables["senders"]
    assert fates.heads == ["port", "sender", "crowded", "kept"]


def test_a_curve_is_broken_where_a_port_did_not_follow():
    found = charts(made.transcript(1200, 2, period=17).encode())
    assert None in found.offsets.value
    assert found.offsets.time == sorted(found.offsets.time)


def test_pictures(tmp_path):
    for octets in (PORT_LOCKS, TWO_CLOCKS, made.transcript(900, 13, period=3).encode()):
        png, svg = tmp_path / "a.png", tmp_path / "a.svg"
        done = run("report", "--picture", png, "--picture", svg, "--name", "a run", text=octets)
        assert done.returncode == 0, done.stderr
        assert done.stdout == b""
        assert png.read_bytes().startswith(b"\x89PNG")
        texts = [node.text for node in ElementTree.parse(svg).iter() if node.tag.endswith("}text")]
        assert "Bahupy replay of a run" in texts and "offset in ns" in texts and "port 2" in texts
    done = run("report", "--picture", tmp_path / "a.gif", text=PORT_LOCKS)
    assert done.returncode == 1 and b".png or .svg" in done.stderr


def test_a_run_with_nothing_in_it(tmp_path):
    text = b"bc-transcript 1\nclock 0 0 0\nend 0\n"
    done = run("report", "-o", tmp_path / "a.html", "--picture", tmp_path / "a.png", text=text)
    assert done.returncode == 0, done.stderr


def test_a_run_of_the_greatest_length(tmp_path):
    text = made.transcript(131_071, 2).encode()
    began = time.monotonic()
    done = run("report", "-o", tmp_path / "a.html", text=text)
    assert done.returncode == 0, done.stderr
    assert time.monotonic() - began < 120
    assert (tmp_path / "a.html").stat().st_size < 10_000_000
    done = run("export", "-o", tmp_path / "a.pcapng", text=text)
    assert done.returncode == 0, done.stderr
    assert time.monotonic() - began < 240

"""The check of the documents: what it finds, and what it lets pass."""

from __future__ import annotations

from pathlib import Path

import pytest

from bahupy_tools.documents import faults_in

DEFINITION = "-- a sender's record\nabbrev pub record_of : ℕ → ℕ\nrecord_of n = n\n"


@pytest.fixture
def top(tmp_path: Path) -> Path:
    """A repository with one definition, one example and one document, which is empty."""
    for name, text in {
        "crates/low/specs/Records.antt": DEFINITION,
        "examples/silent.txt": "[global]\nduration 6\n",
        "examples/silent.transcript": "bc-transcript 1\nevent 1 0 port 1 frame 0 0b1200\nend 1\n",
    }.items():
        path = tmp_path / name
        path.parent.mkdir(parents=True, exist_ok=True)
        path.write_text(text, "utf-8")
    return tmp_path


@pytest.mark.parametrize(
    ("text", "fault"),
    [
        ("[a file](crates/low/specs/Records.antt)", None),
        ("[a file](crates/low/specs/Others.antt)", "leads nowhere"),
        ("# A head\n[here](#a-head)", None),
        ("# A head\n[here](#another-head)", "no such heading"),
        ("`Records.record_of`", None),
        ("`Records.records_of`", "Records.antt has no records_of"),
        ("[`Records.record_of`](crates/low/specs/Records.antt)", None),
        ("[`Records.record_of`](examples/silent.txt)", "has no record_of"),
        ("`record_of`, `duration 6`, `NUMBER`, `after_X`, `0x7F`", None),
        ("`recorded`", "no source has recorded"),
        ("`low/specs/Records.antt`, `specs/Records`, `examples/*.txt`", None),
        ("`specs/Recorded`", "no file specs/Recorded"),
        ("```transcript silent\nevent 1 0 port 1 frame 0 0b..\n```", None),
        ("```transcript silent\nbc-transcript 1\n..\nend 1\n```", None),
        ("```transcript silent\nbc-transcript 1\nend 1\n```", "no such line here"),
        ("```scenario silent\nduration 7\n```", "no such line here"),
        ("```scenario loud\nduration 6\n```", "no example loud.txt"),
        ("```sh\n`recorded` [a](nowhere)\n```", None),
    ],
)
def test_a_document(top: Path, text: str, fault: str | None) -> None:
    """One line of a document, and what is wrong with it."""
    (top / "README.md").write_text(text + "\n", "utf-8")
    faults = faults_in(top)
    if fault is None:
        assert faults == []
    else:
        assert len(faults) == 1
        assert faults[0].startswith("README.md:") and fault in faults[0]

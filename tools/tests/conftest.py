"""What the tests share: where things are, and how a command is run."""

from __future__ import annotations

import io
import os
import sys
from dataclasses import dataclass
from importlib.machinery import SourceFileLoader
from importlib.util import module_from_spec, spec_from_loader
from pathlib import Path
from unittest import mock

import pytest

TOOLS = Path(__file__).resolve().parent.parent
sys.path.insert(0, str(TOOLS))

DATA = TOOLS / "tests" / "data"


@dataclass
class Done:
    """How a command ended, and what it wrote."""

    returncode: int
    stdout: bytes
    stderr: bytes


def run(name: str, *words: object, text: bytes = b"", **variables: str) -> Done:
    """Runs a command of the folder, within this process: the libraries are loaded only once."""
    loader = SourceFileLoader(f"command_{name}", str(TOOLS / name))
    module = module_from_spec(spec_from_loader(loader.name, loader))
    loader.exec_module(module)
    output, errors = io.TextIOWrapper(io.BytesIO()), io.StringIO()
    source = io.TextIOWrapper(io.BytesIO(text))
    with (
        mock.patch.dict(os.environ, variables),
        mock.patch.multiple(sys, argv=[name, *map(str, words)], stdin=source, stdout=output),
        mock.patch.object(sys, "stderr", errors),
    ):
        try:
            status = module.run(name, module.command)
        except SystemExit as end:
            status = end.code
    return Done(status or 0, output.buffer.getvalue(), errors.getvalue().encode())


def captures_folder() -> Path | None:
    """Where real captures are: as the environment says, else beside the examples."""
    for folder in (os.environ.get("BAHUPY_CAPTURES"), TOOLS.parent / "examples" / "captures"):
        if folder and Path(folder, "rivals").is_dir():
            return Path(folder)
    return None


@pytest.fixture
def captures() -> Path:
    """The folder of real captures."""
    folder = captures_folder()
    assert folder is not None, "BAHUPY_CAPTURES names no folder with rivals and single"
    return folder

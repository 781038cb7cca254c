"""Runs the program."""

from __future__ import annotations

import os
import shlex
import subprocess
import time

from .errors import ToolError
from .progress import Progress

VARIABLE = "BAHUPY"


def program_words(given: str | None) -> list[str]:
    """The command that is the program: as given, else of the environment, else the repository's."""
    text = given or os.environ.get(VARIABLE)
    if text:
        return shlex.split(text)
    here = os.path.dirname(os.path.abspath(__file__))
    return [os.path.join(here, "..", "..", "bahupy")]


def replay(text: bytes, given: str | None, command: str) -> bytes:
    """The transcript of a scenario text."""
    progress = Progress(command, "replaying, to see when the ports ask")
    words = [*program_words(given), "replay"]
    try:
        child = subprocess.Popen(
            words, stdin=subprocess.PIPE, stdout=subprocess.PIPE, stderr=subprocess.PIPE
        )
    except OSError as error:
        raise ToolError(f"the program {words[0]} does not run: {error.strerror}") from error
    try:
        output, errors = attend(child, text, progress)
    finally:
        if child.poll() is None:
            child.terminate()
            child.wait()
        progress.end()
    if child.returncode != 0:
        last = errors.decode("utf-8", "replace").strip().splitlines()[-1:] or ["nothing"]
        raise ToolError(f"the program ended with status {child.returncode}: {last[0]}")
    return output


def attend(child: subprocess.Popen, text: bytes, progress: Progress) -> tuple[bytes, bytes]:
    """Waits for the program, and shows that it is at work."""
    pending: bytes | None = text
    while True:
        try:
            return child.communicate(pending, timeout=0.5)
        except subprocess.TimeoutExpired:
            pending = None
            if time.monotonic() >= progress.next:
                progress.next = time.monotonic() + (1 if progress.is_terminal else 15)
                progress.show("at work")

"""Where a transcript comes from."""

from __future__ import annotations

import sys


def read_source(path: str | None) -> bytes:
    """The octets of a file; without a name, or for `-`, those of standard input."""
    if path is None or path == "-":
        return sys.stdin.buffer.read()
    with open(path, "rb") as file:
        return file.read()

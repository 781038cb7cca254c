"""Results that are written whole or not at all."""

from __future__ import annotations

import os
import sys
import tempfile


def write_whole(path: str | None, octets: bytes) -> None:
    """Writes a file under its name once all of it is there; without a name, standard output."""
    if path is None or path == "-":
        sys.stdout.buffer.write(octets)
        sys.stdout.buffer.flush()
        return
    folder = os.path.dirname(path) or "."
    handle, scratch = tempfile.mkstemp(dir=folder, prefix=".bahupy-")
    try:
        with os.fdopen(handle, "wb") as file:
            file.write(octets)
        os.chmod(scratch, 0o666 & ~read_mask())
        os.replace(scratch, path)
    except BaseException:
        os.unlink(scratch)
        raise


def read_mask() -> int:
    """The mask of new files, which can only be read by setting it."""
    mask = os.umask(0)
    os.umask(mask)
    return mask

"""How a command ends: a fault is one line on standard error and a status."""

from __future__ import annotations

import os
import sys
from collections.abc import Callable

FAULT = 1
USAGE = 2
INTERRUPTED = 130


class ToolError(Exception):
    """What was given can't be served. Its text is the line that the reader sees."""


def run(name: str, command: Callable[[list[str]], None]) -> int:
    """Runs a command with the words behind its name, and gives its status."""
    try:
        command(sys.argv[1:])
        sys.stdout.flush()
    except ToolError as error:
        say(name, str(error))
        return FAULT
    except ImportError as error:
        say(name, f"{error.name} is missing; docs/TOOLS.md names the packages of Debian")
        return FAULT
    except BrokenPipeError:
        # Who read the output went away, and Python would complain once more as it ends.
        os.dup2(os.open(os.devnull, os.O_WRONLY), sys.stdout.fileno())
        return FAULT
    except OSError as error:
        say(name, f"{error.filename or 'input'}: {error.strerror or error}")
        return FAULT
    except KeyboardInterrupt:
        return INTERRUPTED
    return 0


def say(name: str, text: str) -> None:
    """One line on standard error, with the name of the command before it."""
    print(f"{name}: {text}", file=sys.stderr, flush=True)

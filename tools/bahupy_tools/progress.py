"""How far a long piece of work is, on standard error."""

from __future__ import annotations

import sys
import time

QUIET_SECONDS = 1.0
"""Work that is done sooner shows nothing."""

TERMINAL_SECONDS = 0.2
PLAIN_SECONDS = 5.0


class Progress:
    """Tells of one piece of work: a line that is rewritten on a terminal, plain lines elsewhere."""

    def __init__(self, name: str, work: str, total: int | None = None) -> None:
        self.name = name
        self.work = work
        self.total = total
        self.is_terminal = sys.stderr.isatty()
        self.began = time.monotonic()
        self.next = self.began + QUIET_SECONDS
        self.has_shown = False

    def at(self, done: int) -> None:
        """So much is done; shown where enough time has passed."""
        now = time.monotonic()
        if now >= self.next:
            self.next = now + (TERMINAL_SECONDS if self.is_terminal else PLAIN_SECONDS)
            self.show(f"{done:,}{self.share(done)}")

    def share(self, done: int) -> str:
        """What part of the whole that is, where the whole is known."""
        return f" ({min(100, 100 * done // self.total)} %)" if self.total else ""

    def show(self, text: str) -> None:
        """Shows one line."""
        seconds = time.monotonic() - self.began
        line = f"{self.name}: {self.work}: {text}, {seconds:.0f} s"
        if self.is_terminal:
            sys.stderr.write(f"\r\033[K{line}")
        else:
            sys.stderr.write(f"{line}\n")
        sys.stderr.flush()
        self.has_shown = True

    def end(self) -> None:
        """Clears the line that was rewritten."""
        if self.has_shown and self.is_terminal:
            sys.stderr.write("\r\033[K")
            sys.stderr.flush()

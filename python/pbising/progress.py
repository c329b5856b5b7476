"""How far a long work is, told on a terminal."""
from __future__ import annotations

import sys
import time
from types import TracebackType
from typing import Any, Optional, TextIO, Type

FIRST, STEP = 1.0, 0.2


class Progress:
    """One line on the error output, where that is a terminal: written after the first second, five
    times a second, and taken away in the end."""

    def __init__(self, what: str, total: int, stream: Optional[TextIO] = None) -> None:
        self.stream = sys.stderr if stream is None else stream
        self.what, self.total, self.done = what, total, 0
        self.least: Optional[int] = None
        self.next = time.monotonic() + FIRST
        self.shown = 0
        self.on = bool(self.stream and self.stream.isatty())

    def step(self, count: int, least: Any) -> None:
        """So much more is done, and this is the least energy of it."""
        self.done += count
        if not self.on:
            return
        self.least = int(least) if self.least is None else min(self.least, int(least))
        now = time.monotonic()
        if now >= self.next:
            self.next = now + STEP
            self._write(f'{self.what}: {100 * self.done // self.total} %, '
                        f'least energy {self.least}')

    def __enter__(self) -> Progress:
        return self

    def __exit__(self, kind: Optional[Type[BaseException]], fault: Optional[BaseException],
                 trace: Optional[TracebackType]) -> None:
        if self.shown:
            self._write('')
            self.stream.write('\r')
            self.stream.flush()

    def _write(self, text: str) -> None:
        self.stream.write('\r' + text.ljust(self.shown))
        self.stream.flush()
        self.shown = max(self.shown, len(text))

"""What the package raises. The text of each error is one line."""
from __future__ import annotations

from typing import Any, Optional, Tuple


class PbisingError(ValueError):
    """Anything that is refused: a text, a key, a sample, or a run of the program."""


class TextError(PbisingError):
    """A text that is not in its format: the line, the token there, and what was wanted."""

    def __init__(self, name: str, line: int, kind: str, token: Optional[str] = None,
                 wanted: Optional[str] = None) -> None:
        self.name, self.line, self.kind = name, line, kind
        self.token, self.wanted = token, wanted
        super().__init__(f'{name}:{line}: {kind}{self._told()}')

    def __reduce__(self) -> Tuple[Any, ...]:
        return type(self), (self.name, self.line, self.kind, self.token, self.wanted)

    def _told(self) -> str:
        if self.wanted is None:
            return ''
        if self.token is None:
            return f': the text ends where {self.wanted} is wanted'
        shown = self.token if len(self.token) <= 40 else self.token[:37] + '..'
        return f': {shown!r} stands where {self.wanted} is wanted'


class ProgramError(PbisingError):
    """A run of the program that ended with another status than 0, and the line that it wrote."""

    def __init__(self, status: int, line: str) -> None:
        self.status, self.line = status, line
        super().__init__(line or f'the program ended with status {status}')

    def __reduce__(self) -> Tuple[Any, ...]:
        return type(self), (self.status, self.line)


class ProgramMissing(PbisingError):
    """The program was found in none of the places that are looked at."""


class UsageError(ProgramError):
    """Status 2: the program has no such command, format, target, key or value."""


class ReadError(ProgramError):
    """Status 3: a file is not there, or may not be read."""


class LimitError(ProgramError):
    """Status 6: the problem is beyond a limit."""


class EmbeddingError(ProgramError):
    """Status 7: the chains do not fit the model and the graph."""


class StateError(ProgramError):
    """Status 8: no state or assignment of the right length."""


class ProofError(ProgramError):
    """Status 10: the certificate does not prove the state."""


class WidthError(ProgramError):
    """Status 11: `solve` meets a node with too many neighbours."""


BY_STATUS = {2: UsageError, 3: ReadError, 6: LimitError, 7: EmbeddingError, 8: StateError,
             10: ProofError, 11: WidthError}

"""Files, tokens and whole numbers, as all formats have them.

A line feed ends a line. Blanks are the space, the tab and the carriage return, and nothing else.
Names of files may be `-`, the standard input.
"""
from __future__ import annotations

import importlib
import os
import re
import sys
from typing import Iterable, Iterator, NoReturn, Optional, Sequence, Tuple, Union

from .errors import PbisingError, ReadError, TextError

PathName = Union[str, 'os.PathLike[str]']
Token = Tuple[int, str]

COMPRESSED = {'.gz': ('gzip', b'\x1f\x8b'), '.bz2': ('bz2', b'BZh'),
              '.xz': ('lzma', b'\xfd7zXZ\0')}
TOKEN = re.compile(r'[^ \t\r\n]+')
NUMBER = re.compile(r'([+-]?)0*([0-9]+)(?:\.0*)?')
BEYOND = 2 ** 64


def read_bytes(name: PathName) -> bytes:
    """The bytes of a file, those that it was compressed of where it is, without a mark of UTF-8 at
    the beginning."""
    try:
        if name == '-':
            data = sys.stdin.buffer.read()
        else:
            with open(name, 'rb') as file:
                data = file.read()
    except (OSError, ValueError) as fault:
        raise ReadError(3, f'cannot read {name}: {getattr(fault, "strerror", None) or fault}') \
            from None
    for module, mark in COMPRESSED.values():
        if data.startswith(mark):
            data = _expanded(name, module, data)
    return data[3:] if data.startswith(b'\xef\xbb\xbf') else data


def _expanded(name: PathName, module: str, data: bytes) -> bytes:
    """What compressed bytes are made of."""
    try:
        expanded: bytes = importlib.import_module(module).decompress(data)
        return expanded
    except ImportError:
        raise PbisingError(f'{called(name)}: this Python has no module {module}') from None
    except Exception:  # each module has errors of its own
        raise PbisingError(f'{called(name)}: this is no whole file of {module}') from None


def write_bytes(name: PathName, data: bytes) -> None:
    """Writes a file."""
    try:
        with open(name, 'wb') as file:
            file.write(data)
    except (OSError, ValueError) as fault:
        raise PbisingError(f'cannot write {name}: {getattr(fault, "strerror", None) or fault}') \
            from None


def text_of(data: bytes) -> str:
    """Bytes as text, whatever they are."""
    return data.decode('utf-8', 'replace')


def called(name: PathName) -> str:
    """What a file is called in an error."""
    return 'the standard input' if name == '-' else str(name)


def whole(word: str, beyond: Optional[int] = BEYOND) -> Optional[int]:
    """The whole number that a token is, or None; `beyond`, where given, is above its size."""
    found = NUMBER.fullmatch(word)
    if not found or len(found[2]) > 1000:
        return None
    size = int(found[2])
    if beyond is not None and size >= beyond:
        return None
    return -size if found[1] == '-' else size


def one_of(choices: Sequence[str]) -> str:
    """Some choices as they are told: a, b or c."""
    return ' or '.join(filter(None, (', '.join(choices[:-1]), choices[-1])))


def tokens_of(text: str) -> Iterator[Token]:
    """The tokens of all lines that are no comments, each with the number of its line."""
    for number, line in enumerate(text.split('\n'), 1):
        words = TOKEN.findall(line)
        if words and not words[0].startswith('c'):
            for word in words:
                yield number, word


class Cursor:
    """The tokens of a text, taken one after another, and the errors of those that cannot stand."""

    def __init__(self, name: str, tokens: Iterable[Token], beyond: Optional[int] = BEYOND) -> None:
        self.name, self.line, self.word = name, 1, ''
        self.beyond = beyond
        self._tokens = iter(tokens)
        self._ahead: Optional[Token] = next(self._tokens, None)

    def peek(self) -> Optional[str]:
        """The next token, or None at the end."""
        return self._ahead[1] if self._ahead else None

    def next_line(self) -> int:
        """The line of the next token, or 0 at the end."""
        return self._ahead[0] if self._ahead else 0

    def take(self, wanted: str) -> str:
        """The next token; without one the text is at its end."""
        if self._ahead is None:
            raise TextError(self.name, self.line, 'end', None, wanted)
        self.line, self.word = self._ahead
        self._ahead = next(self._tokens, None)
        return self.word

    def fault(self, kind: str, wanted: str) -> NoReturn:
        """The last token cannot stand where it does."""
        raise TextError(self.name, self.line, kind, self.word, wanted)

    def value(self) -> Optional[int]:
        """The number that the last token is, or None."""
        return whole(self.word, self.beyond)

    def number(self, wanted: str, least: Optional[int] = None, most: Optional[int] = None) -> int:
        """A number in a range."""
        self.take(wanted)
        value = self.value()
        if value is None:
            self.fault('number', wanted)
        if (least is not None and value < least) or (most is not None and value > most):
            self.fault('range', wanted)
        return value

    def one_of(self, words: Tuple[str, ...], wanted: str) -> str:
        """One of some words."""
        if self.take(wanted) not in words:
            self.fault('word', wanted)
        return self.word

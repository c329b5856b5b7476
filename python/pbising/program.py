"""The program `compile_program`: where it is, and runs of it.

It is looked for in this order: the file that the variable PBISING_PROGRAM names, one beside this
package, one on the PATH, and the one that a checkout has built.
"""
from __future__ import annotations

import os
import re
import shutil
import subprocess
import tempfile
from pathlib import Path
from typing import Generator, List, NamedTuple, Sequence, Union

from .errors import BY_STATUS, PbisingError, ProgramError, ProgramMissing, TextError

NAME = 'compile_program'
HERE = Path(__file__).resolve().parent
CHECKOUT = HERE.parents[1] / 'crates' / NAME / 'out' / NAME
USAGE = re.compile(r'usage: word ([0-9]+)')
FAULT = re.compile(r'(.*):([0-9]+): (word|number|range|end|extra)')

class FileWord(NamedTuple):
    """A word that names a file: what stands before the name, what the file is called in errors,
    and its contents."""

    called: str
    data: bytes
    before: str = ''


Word = Union[str, FileWord]


def find_program() -> str:
    """The path of the program."""
    named = os.environ.get('PBISING_PROGRAM')
    if named:
        if _runs(Path(named)):
            return named
        raise ProgramMissing(f'PBISING_PROGRAM names {named}, which is no program')
    if _runs(HERE / NAME):
        return str(HERE / NAME)
    found = shutil.which(NAME)
    if found:
        return found
    if _runs(CHECKOUT):
        return str(CHECKOUT)
    raise ProgramMissing(f'{NAME} is not found: set PBISING_PROGRAM to its path, or put it on '
                         'the PATH')


def run(words: Sequence[Word]) -> bytes:
    """The output of a run of the program."""
    with tempfile.TemporaryDirectory(prefix='pbising-') as folder:
        placed = _placed(words, folder)
        done = subprocess.run([find_program(), *placed], stdin=subprocess.DEVNULL,
                              stdout=subprocess.PIPE, stderr=subprocess.PIPE, check=False)
    if done.returncode == 0:
        return done.stdout
    raise _error(done.returncode, done.stderr.decode('utf-8', 'replace'), words, placed)


def first_lines(words: Sequence[Word]) -> Generator[str, None, None]:
    """The lines of the output of a run, which is ended where no more are asked for."""
    with tempfile.TemporaryDirectory(prefix='pbising-') as folder:
        placed = _placed(words, folder)
        with subprocess.Popen([find_program(), *placed], stdin=subprocess.DEVNULL,
                              stdout=subprocess.PIPE, stderr=subprocess.PIPE,
                              universal_newlines=True) as program:
            assert program.stdout and program.stderr
            ended = False
            try:
                yield from program.stdout
                ended = True
            finally:
                if not ended:
                    program.kill()
            line = program.stderr.read()
        if program.returncode > 0:
            raise _error(program.returncode, line, words, placed)


def _runs(path: Path) -> bool:
    return path.is_file() and os.access(path, os.X_OK)


def _placed(words: Sequence[Word], folder: str) -> List[str]:
    """The words, of which the files stand in a folder."""
    placed = []
    for number, word in enumerate(words):
        if isinstance(word, FileWord):
            place = os.path.join(folder, f'{number}')
            Path(place).write_bytes(word.data)
            word = word.before + place
        placed.append(word)
    return placed


def _error(status: int, line: str, words: Sequence[Word], placed: Sequence[str]) -> PbisingError:
    """The error of a status and the line that was written with it."""
    line = line.strip()
    for word, place in zip(words, placed):
        if isinstance(word, FileWord):
            line = line.replace(place[len(word.before):], word.called)
    fault, usage = FAULT.fullmatch(line), USAGE.fullmatch(line)
    if status == 5 and fault:
        return TextError(fault[1], int(fault[2]), fault[3])
    if usage:
        at = int(usage[1]) - 1
        line += f': {placed[at]!r}' if at < len(placed) else ': one more is needed'
    return BY_STATUS.get(status, ProgramError)(status, line)

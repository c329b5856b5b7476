"""What is compiled: a file or a text in one of the formats, with what the package knows of it."""
from __future__ import annotations

import os
from dataclasses import dataclass
from functools import cached_property
from typing import Any, Dict, Hashable, Iterable, List, Mapping, Optional, Sequence, Union

from .errors import PbisingError
from .keys import FORMATS, near
from .problems import SourceProblem
from .readers import read_problem
from .texts import COMPRESSED, PathName, called, read_bytes, write_bytes

Label = Hashable
BITS = {1: 1, '1': 1, '+': 1, '+1': 1, 0: 0, -1: 0, '0': 0, '-': 0, '-1': 0}


@dataclass(repr=False)
class Source:
    """A problem as the text of a file. The variables of the text may have labels."""

    data: bytes
    format: str
    name: str = 'text'
    labels: Optional[List[Label]] = None

    def __repr__(self) -> str:
        return f'<Source {self.name}: {self.format}, {len(self.data)} bytes>'

    @cached_property
    def problem(self) -> SourceProblem:
        """What the text says; a text that is not in its format is a `TextError`."""
        return read_problem(self.format, self.data, self.name)

    @property
    def has_parts(self) -> bool:
        """Whether there are clauses or constraints to break; no text is read for that."""
        return self.format in ('wcnf', 'opb', 'wbo')

    @property
    def text(self) -> str:
        """The text."""
        return self.data.decode('utf-8', 'replace')

    def names(self, variables: Optional[int] = None) -> List[Label]:
        """What the variables are called, in their order: by the labels of the problem that was
        written, or as the format names them.

        Where their number is given, only a polynomial is read for that.
        """
        if self.labels is not None:
            return self.labels
        if self.format == 'poly':
            return list(self.problem.names or ())
        count = range(self.problem.variables if variables is None else variables)
        if self.format in ('opb', 'wbo'):
            return [f'x{number + 1}' for number in count]
        return [number + 1 for number in count] if self.format == 'wcnf' else list(count)

    def values(self, bits: Sequence[int]) -> Dict[Label, Any]:
        """What an assignment says of each variable, by its name or label."""
        return dict(zip(self.names(len(bits)), bits))

    def cost(self, assignment: Union[Mapping[Label, Any], Sequence[Any]]) -> Optional[int]:
        """What an assignment costs, exactly; None where that is infinite.

        It is a list of bits, or a dict by the names of the variables.
        """
        return self.problem.cost(self.bits(assignment))

    def bits(self, assignment: Union[Mapping[Label, Any], Sequence[Any]]) -> List[int]:
        """An assignment as a list of bits; spins are taken too."""
        if isinstance(assignment, Mapping):
            missing = [name for name in self.names() if name not in assignment]
            if missing:
                raise PbisingError(f'the assignment says nothing of {missing[0]!r}')
            assignment = [assignment[name] for name in self.names()]
        if len(assignment) != self.problem.variables:
            raise PbisingError(f'the assignment has {len(assignment)} values, '
                               f'and there are {self.problem.variables} variables')
        return bits_of(assignment)

    def write(self, name: PathName) -> None:
        """Writes the text to a file."""
        write_bytes(name, self.data)


def bits_of(values: Iterable[Any]) -> List[int]:
    """The bits of bits or spins; the first value that is neither is a `PbisingError`."""
    values = list(values)
    try:
        return list(map(BITS.__getitem__, values))
    except (KeyError, TypeError):
        return list(map(bit_of, values))


def bit_of(value: Any) -> int:
    """The bit of a bit or a spin, whatever type of number or sign it is."""
    for bit in BITS:
        if value == bit:
            return BITS[bit]
    raise PbisingError(f'{value!r} is no bit and no spin')


def source_of(source: Any, layout: Optional[str] = None) -> Source:
    """A file, a text or a source as a source.

    A str with a line feed in it is a text, and any other the name of a file, of which the format is
    the ending where none is given.
    """
    if isinstance(source, Source):
        if layout not in (None, source.format):
            raise PbisingError(f'{source.name} has the format {source.format}, not {layout!r}')
        return source
    if isinstance(source, str) and '\n' in source:
        found = Source(source.encode(), layout or '')
    elif isinstance(source, (str, os.PathLike)):
        ending = format_of(source)
        found = Source(read_bytes(source), layout or ending, called(source))
    else:
        raise PbisingError(f'a {type(source).__name__} is no file: from_qubo, from_ising, '
                           'from_polynomial, from_constraints and from_bqm make problems of '
                           'Python objects')
    if found.format not in FORMATS:
        raise PbisingError(f'{found.name}: {_no_format(found.format)}')
    return found


def format_of(name: PathName) -> str:
    """The ending of a file's name, that of a compressed file before its last one."""
    front, ending = os.path.splitext(os.fspath(name))
    if ending in COMPRESSED:
        ending = os.path.splitext(front)[1]
    return ending[1:]


def _no_format(word: str) -> str:
    """What is wrong with a format."""
    if word == 'cnf':
        return ('a plain CNF weighs nothing: `from_cnf` and `pbising from-cnf` make a weighted '
                'one; where it says `p wcnf`, the format is wcnf')
    told = f'not {word!r}{near(word, FORMATS)}' if word else 'and the name has no ending'
    return f'the format is one of {", ".join(FORMATS)}, {told}'

"""What a problem file says: its clauses or constraints, what they weigh, and what an assignment
costs. All is counted in whole numbers, exactly.

A literal is a number as in a CNF: 3 is the third variable, and -3 its complement. A term is a
coefficient with literals whose product counts.
"""
from __future__ import annotations

from dataclasses import dataclass, field
from typing import Any, Callable, Iterable, List, NamedTuple, Optional, Sequence, Tuple, Union

from .rows import Rows, weighed

Term = Tuple[int, Sequence[int]]
Truth = Callable[[int], bool]


class Clause(NamedTuple):
    """Literals of which one is to be true; without a weight it is hard."""

    line: int
    literals: Tuple[int, ...]
    weight: Optional[int] = None

    def kept(self, truth: Truth) -> bool:
        """Whether an assignment keeps it."""
        return any(map(truth, self.literals))

    def told(self, _: Truth) -> str:
        """The clause as it is written."""
        return ' '.join(map(str, self.literals)) or 'no literal'


class Constraint(NamedTuple):
    """A sum with a bound; without a weight it is hard. The text is what its writer calls it."""

    line: int
    terms: List[Term]
    operator: str
    bound: int
    weight: Optional[int] = None
    text: Optional[str] = None

    def kept(self, truth: Truth) -> bool:
        """Whether an assignment keeps it."""
        total = summed(self.terms, truth)
        if self.operator == '=':
            return total == self.bound
        return total >= self.bound if self.operator == '>=' else total <= self.bound

    def told(self, truth: Truth) -> str:
        """The constraint as it is written, and what its sum is, or how far that is off."""
        if self.text is not None:
            return f'{self.text}, by {abs(summed(self.terms, truth) - self.bound)}'
        terms = ' '.join(f'{c} ' + ' '.join(map(_named, literals)) for c, literals in self.terms)
        return f'{terms} {self.operator} {self.bound}, the sum is {summed(self.terms, truth)}'


Part = Union[Clause, Constraint]


class Broken(NamedTuple):
    """A clause or a constraint that an assignment breaks: its line in the file, its weight (None
    for a hard one), and what it says."""

    line: int
    weight: Optional[int]
    text: str


@dataclass
class Verdict:
    """What an assignment costs, None where that is infinite, and the parts that it breaks."""

    cost: Optional[int]
    parts: List[Part]
    truth: Truth

    def broken(self) -> List[Broken]:
        """The broken parts, told."""
        return [Broken(part.line, part.weight, part.told(self.truth)) for part in self.parts]


@dataclass
class SourceProblem:
    """Parts, the terms of the objective and, of a WBO file, its TOP; of a polynomial the names of
    its variables, and of a QUBO or an Ising file its rows."""

    variables: int
    parts: List[Part] = field(default_factory=list)
    objective: List[Term] = field(default_factory=list)
    top: Optional[int] = None
    names: Optional[List[str]] = None
    rows: Optional[Rows] = None

    def judge(self, bits: Sequence[Any]) -> Verdict:
        """What an assignment costs, and what it breaks."""
        truth = truth_of(bits)
        broken = [part for part in self.parts if not part.kept(truth)]
        weights = [part.weight for part in broken if part.weight is not None]
        if len(weights) < len(broken):
            return Verdict(None, broken, truth)
        weight = sum(weights)
        if self.top is not None and weight >= self.top:
            return Verdict(None, broken, truth)
        rows = 0 if self.rows is None else weighed(self.rows, bits)
        return Verdict(weight + summed(self.objective, truth) + rows, broken, truth)

    def cost(self, bits: Sequence[Any]) -> Optional[int]:
        """What an assignment costs, or None where that is infinite."""
        return self.judge(bits).cost


def truth_of(bits: Sequence[Any]) -> Truth:
    """Which literals are true: a list that a literal below 0 indexes from its end."""
    ahead = [bool(bit) for bit in bits]
    return [False, *ahead, *(not bit for bit in reversed(ahead))].__getitem__


def summed(terms: Iterable[Term], truth: Truth) -> int:
    """The sum of the coefficients whose literals are all true."""
    return sum(c for c, literals in terms if all(map(truth, literals)))


def _named(literal: int) -> str:
    """A literal as OPB files write it."""
    return ('~' if literal < 0 else '') + f'x{abs(literal)}'

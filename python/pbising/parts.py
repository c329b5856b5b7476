"""The problem that a model is made of: the one of the file in normal form, behind the rewriting of
soft constraints, behind `slack=` and with `bound=`.

A clause is the sum of its literals, to be at least 1, and a soft clause is a product of the
complements of its literals. So there are sums, and products that cost or gain something.
"""
from __future__ import annotations

from dataclasses import dataclass, field
from itertools import combinations
from typing import Iterable, Iterator, List, Mapping, NamedTuple, Optional, Sequence, Tuple

from .problems import Clause, Constraint, SourceProblem, Term

MOST_PRODUCTS, MOST_PAIRS = 1024, 2 ** 21
Literals = Tuple[int, ...]
Product = Tuple[int, Literals]


class Hard(NamedTuple):
    """A sum that is to be at least a number, or exactly that; its line in the file, or 0."""

    line: int
    terms: List[Product]
    bound: int
    exact: bool = False

    def missing(self, value: int) -> int:
        """How far a value of the sum is off."""
        return abs(value - self.bound) if self.exact else max(self.bound - value, 0)

    def least(self) -> int:
        """The sum of the coefficients below 0."""
        return sum(min(c, 0) for c, _ in self.terms)

    def greatest(self) -> int:
        """The sum of the coefficients above 0."""
        return sum(max(c, 0) for c, _ in self.terms)

    def most_missing(self) -> int:
        """The most that can be missing."""
        return max(self.missing(self.least()), self.missing(self.greatest()))

    def alone(self) -> bool:
        """Whether all products have one literal."""
        return all(len(literals) == 1 for _, literals in self.terms)

    def wanted(self) -> List[int]:
        """The literals that bring the sum up, of the products of one literal."""
        return [literals[0] if c > 0 else -literals[0] for c, literals in self.terms
                if len(literals) == 1]


@dataclass
class Compiled:
    """Products that cost something, hard parts, and the greatest cost that counts, if any; of the
    variables the last ones may be bits that say which soft constraint fails."""

    variables: int
    constant: int = 0
    terms: List[Product] = field(default_factory=list)
    hard: List[Hard] = field(default_factory=list)
    most: Optional[int] = None

    def penalty(self) -> int:
        """The penalty of all, which no part passes."""
        gain = sum(abs(c) for c, _ in self.terms)
        least = self.constant + sum(min(c, 0) for c, _ in self.terms)
        return gain + 1 if self.most is None else max(1, min(gain + 1, self.most - least + 1))

    def pay(self, coefficient: int, literals: Iterable[int]) -> None:
        """Adds a product to the costs."""
        for c, product in normal([(coefficient, tuple(literals))]):
            if product:
                self.terms.append((c, product))
            else:
                self.constant += c


def compiled_of(problem: SourceProblem, keys: Mapping[str, str]) -> Compiled:
    """The problem that is compiled with the keys `slack` and `bound`. Files of QUBO and Ising
    models, which have no part to break, are not asked for."""
    slack, bound = keys.get('slack', 'bits'), keys.get('bound')
    made = Compiled(problem.variables, most=None if bound is None else int(bound))
    for coefficient, literals in problem.objective:
        made.pay(coefficient, literals)
    for part in problem.parts:
        if isinstance(part, Clause):
            _put_clause(made, part)
        elif part.weight is None:
            made.hard.append(sum_of(part))
        elif part.weight:
            _soften(made, part.weight, sum_of(part))
    weights = [(-c, literals) for c, literals in made.terms]
    if problem.top is not None and -sum(c for c, _ in weights) >= problem.top:
        if slack == 'clauses':
            made.most = min(problem.top - 1, problem.top if bound is None else int(bound))
        else:
            made.hard.append(Hard(0, weights, 1 - problem.top))
    if slack != 'bits':
        made.hard = list(_in_clauses(made.hard, slack == 'clauses'))
    return made


def normal(terms: Iterable[Term]) -> Iterator[Product]:
    """The products that count, each literal once and in order."""
    for coefficient, literals in terms:
        product = tuple(sorted(set(literals), key=lambda literal: (abs(literal), literal < 0)))
        if coefficient and len({abs(literal) for literal in product}) == len(product):
            yield coefficient, product


def sum_of(part: Constraint) -> Hard:
    """A constraint of a file, which may be at most a number there."""
    sign = -1 if part.operator == '<=' else 1
    terms = list(normal((sign * c, literals) for c, literals in part.terms))
    return Hard(part.line, terms, sign * part.bound, part.operator == '=')


def _put_clause(made: Compiled, part: Clause) -> None:
    """Adds a clause, a hard one or a soft one."""
    if part.weight is not None:
        made.pay(part.weight, [-literal for literal in part.literals])
    else:
        made.hard += _clause(part.line, part.literals)


def _clause(line: int, literals: Sequence[int]) -> Iterator[Hard]:
    """A hard clause, but for one that always holds."""
    for _, product in normal([(1, literals)]):
        yield Hard(line, [(1, (literal,)) for literal in product], 1)


def _soften(made: Compiled, weight: int, part: Hard) -> None:
    """Adds a soft constraint: one that holds, or a bit that is paid for."""
    made.variables += 1
    bit = (made.variables,)
    made.terms.append((weight, bit))
    for sign in (1, -1) if part.exact else (1,):
        terms, bound = [(sign * c, literals) for c, literals in part.terms], sign * part.bound
        room = bound - sum(min(c, 0) for c, _ in terms)
        made.hard.append(Hard(part.line, terms + ([(room, bit)] if room > 0 else []), bound))


def _in_clauses(parts: Iterable[Hard], covers: bool) -> Iterator[Hard]:
    """Parts with clauses in the place of conflicts and, where that is wanted, of covers."""
    left = MOST_PAIRS
    for part in parts:
        wanted, room = part.wanted(), part.greatest() - part.bound
        pairs = [literal for (c, _), literal in zip(part.terms, wanted) if abs(c) <= room]
        count = len(pairs) * (len(pairs) - 1) // 2
        if _is_conflict(part) and count <= left:
            left -= count
            for (c, _), literal in zip(part.terms, wanted):
                yield from _clause(part.line, [literal]) if abs(c) > room else ()
            for pair in combinations(pairs, 2):
                yield from _clause(part.line, pair)
        elif covers and _is_cover(part):
            yield from _clause(part.line, wanted)
        else:
            yield part


def _is_conflict(part: Hard) -> bool:
    """Whether no two literals of a sum may be false."""
    room = part.greatest() - part.bound
    sizes = sorted(abs(c) for c, _ in part.terms)[:2]
    return (not part.exact and 0 < len(part.terms) <= MOST_PRODUCTS and part.alone() and room >= 0
            and (len(sizes) == 1 or sum(sizes) > room))


def _is_cover(part: Hard) -> bool:
    """Whether one true literal is enough for a sum, and the clause has no more new nodes than the
    sum has slack bits."""
    need, room = part.bound - part.least(), max(part.greatest() - part.bound, 0)
    return (not part.exact and 0 < len(part.terms) <= MOST_PRODUCTS and part.alone() and need >= 1
            and all(abs(c) >= need for c, _ in part.terms)
            and (len(part.terms) - 1) // 2 <= room.bit_length())

"""Expressions as polynomials over bits, and conditions as lines of OPB and WBO files."""
from __future__ import annotations

from itertools import combinations, product as states
from typing import Dict, Iterable, Iterator, List, NamedTuple, Optional, Sequence, Tuple

from .errors import PbisingError
from .expressions import Condition, Expression, Label
from .problems import Constraint

Bits = Tuple[int, ...]
Polynomial = Dict[Bits, int]
MOST_TERMS = 2 ** 16
FEW = 2


class Wanted(NamedTuple):
    """A condition, what it is called, and its weight where it may fail."""

    condition: Condition
    called: str
    weight: Optional[int] = None

    def constraint(self, line: int = 0) -> Constraint:
        """The condition over bits, as a line of a file says it."""
        terms = over_bits(self.condition.difference)
        bound = -terms.pop((), 0)
        return Constraint(line, [(c, [bit + 1 for bit in bits]) for bits, c in terms.items()],
                          self.condition.operator, bound, self.weight, self.called)


def over_bits(expression: Expression) -> Polynomial:
    """An expression as a polynomial over bits."""
    sums: Polynomial = {}
    for variables, coefficient in expression.terms.items():
        part: Polynomial = {(): coefficient}
        for variable in variables:
            part = _times(part, variable.polynomial())
            if len(part) > MOST_TERMS:
                raise PbisingError(f'{expression}: a product of it is more than {MOST_TERMS} '
                                   'products of bits')
        _add(sums, part)
    return {bits: c for bits, c in sums.items() if c}


def _times(left: Polynomial, right: Polynomial) -> Polynomial:
    sums: Polynomial = {}
    for some, c in left.items():
        for others, d in right.items():
            bits = tuple(sorted({*some, *others}))
            sums[bits] = sums.get(bits, 0) + c * d
    return sums


def _add(sums: Polynomial, part: Polynomial) -> None:
    for bits, c in part.items():
        sums[bits] = sums.get(bits, 0) + c


def failure(constraint: Constraint) -> Optional[Polynomial]:
    """1 where a condition on few bits fails and 0 where it holds, as a polynomial over its bits;
    None where it is on more bits."""
    used = sorted({literal for _, literals in constraint.terms for literal in literals})
    if len(used) > FEW:
        return None
    fails = {}
    for values in states((0, 1), repeat=len(used)):
        truth = dict(zip(used, map(bool, values))).__getitem__
        ones = tuple(literal - 1 for literal in used if truth(literal))
        fails[ones] = int(not constraint.kept(truth))
    sums: Polynomial = {}
    for ones in fails:
        sums[ones] = sum(fails[part] * (-1) ** (len(ones) - len(part))
                         for count in range(len(ones) + 1) for part in combinations(ones, count))
    return sums


def relaxed(constraint: Constraint, bit: int) -> Iterator[Constraint]:
    """Conditions that say the same where a bit is 0, and nothing where it is 1."""
    operators = ('>=', '<=') if constraint.operator == '=' else (constraint.operator,)
    for operator in operators:
        sign = 1 if operator == '>=' else -1
        terms = [(sign * c, literals) for c, literals in constraint.terms]
        room = sign * constraint.bound - sum(min(c, 0) for c, _ in terms)
        if room > 0:
            yield constraint._replace(terms=[*terms, (room, [bit + 1])], operator='>=',
                                      bound=sign * constraint.bound, weight=None)


def sum_text(terms: Iterable[Tuple[int, Iterable[int]]]) -> str:
    """A sum as OPB writes it."""
    return ' '.join(' '.join([str(c), *(f'{"~" * (literal < 0)}x{abs(literal)}'
                                        for literal in literals)]) for c, literals in terms)


def goal_terms(goal: Polynomial) -> List[Tuple[int, List[int]]]:
    """The terms of an objective. Its constant joins coefficients of the other sign, c x and 1 as
    (c + 1) x and 1 ~x, which leaves the sum of all sizes as it was; a rest is a term of x1 and
    one of its complement."""
    rest = goal.get((), 0)
    terms: List[Tuple[int, List[int]]] = []
    for bits, c in goal.items():
        if len(bits) == 1 and c * rest < 0:
            moved = max(-c, rest) if rest < 0 else min(-c, rest)
            rest -= moved
            terms.append((moved, [-bits[0] - 1]))
            c += moved
        if c and bits:
            terms.append((c, [bit + 1 for bit in bits]))
    return terms + ([(rest, [1]), (rest, [-1])] if rest else [])


class Text:
    """The lines of an OPB or a WBO file, what conditions are called by their lines, the soft ones
    that are terms of the objective, with the bit that tells that they fail or None, and the labels
    of all bits."""

    def __init__(self, conditions: Sequence[Wanted], labels: Sequence[Label]) -> None:
        self.conditions, self.labels = conditions, list(labels)
        self.lines: List[str] = []
        self.called: Dict[int, str] = {}
        self.soft: List[Tuple[Constraint, Optional[int]]] = []

    def write_wbo(self) -> None:
        """All conditions, the soft ones with their weights."""
        self.lines.append('soft: ;')
        for wanted in self.conditions:
            self._say(wanted.constraint())
        last = len(self.labels)
        if all(f' x{last} ' not in line for line in self.lines):
            self._say(Constraint(0, [(1, [last])], '>=', 0, 0, 'the last variable'))

    def write_opb(self, goal: Polynomial) -> None:
        """The objective with the soft conditions, and the hard ones."""
        sums = dict(goal)
        hard: List[Constraint] = []
        for wanted in self.conditions:
            constraint = wanted.constraint()
            hard += [constraint] if wanted.weight is None else self._soften(constraint, sums)
        terms, last = goal_terms(sums), len(self.labels)
        every = terms + [term for constraint in hard for term in constraint.terms]
        if all(last not in literals and -last not in literals for _, literals in every):
            terms.append((0, [last]))
        if terms:
            self.lines.append(f'min: {sum_text(terms)} ;')
        for constraint in hard:
            self._say(constraint)
        for at, (constraint, bit) in enumerate(self.soft):
            self.lines.append(f'* weight {constraint.weight}: {_plain(constraint.text)}')
            self.soft[at] = constraint._replace(line=len(self.lines)), bit

    def _soften(self, constraint: Constraint, goal: Polynomial) -> List[Constraint]:
        """Puts a soft condition into the objective; what is to hold for that."""
        fails, bit = failure(constraint), None
        if fails is None:
            bit = len(self.labels)
            fails = {(bit,): 1}
            self.labels.append(f'fails[{len(self.soft)}]')
        _add(goal, {bits: (constraint.weight or 0) * c for bits, c in fails.items()})
        self.soft.append((constraint, bit))
        return [] if bit is None else list(relaxed(constraint, bit))

    def _say(self, constraint: Constraint) -> None:
        """Writes a condition, behind a comment with what it is called."""
        self.lines += [f'* {_plain(constraint.text)}', constraint_text(constraint)]
        self.called[len(self.lines)] = constraint.text or ''


def _plain(text: Optional[str]) -> str:
    """A text on one line, in characters that any tool reads."""
    return (text or '').encode('ascii', 'backslashreplace').decode().replace('\n', ' ')


def constraint_text(constraint: Constraint) -> str:
    """A condition as a line of a file."""
    weight = '' if constraint.weight is None else f'[{constraint.weight}] '
    return (f'{weight}{sum_text(constraint.terms)} {constraint.operator} {constraint.bound} ;')

"""The penalties of `penalty=local`: one for each hard part, and the walk that they promise.

A part has a penalty of its own where some literal, made true, mends it for less: the *price* of a
literal is the most that costs and other parts can rise by it. From an assignment that breaks only
such parts a walk leads to one that breaks none and costs less than what it began with. Such a
step lowers the energy, the least over all added bits, by at least 1.
"""
from __future__ import annotations

from math import inf
from typing import Dict, Iterable, Iterator, List, Optional, Sequence, Set, Tuple, Union

from .parts import Compiled, Hard, Product

ROUNDS = 8
Price = Union[int, float]


def hurting(part: Hard) -> Set[int]:
    """The literals that can break a part when they become true, or break it further."""
    found: Set[int] = set()
    for coefficient, literals in part.terms:
        if part.exact or coefficient > 0:
            found.update(-literal for literal in literals)
        if part.exact or coefficient < 0:
            found.update(literals)
    return found


class Prices:
    """Of each literal what costs and parts of known penalties can rise by where it becomes true,
    and how many parts of no known penalty it hurts. A literal below 0 counts from the end."""

    def __init__(self, problem: Compiled) -> None:
        self.hurting = list(map(hurting, problem.hard))
        self.known: List[int] = [0] * (2 * problem.variables + 1)
        self.others = self.known[:]
        for coefficient, literals in problem.terms:
            for literal in literals:
                self.known[literal if coefficient > 0 else -literal] += abs(coefficient)
        for found in self.hurting:
            for literal in found:
                self.others[literal] += 1

    def settle(self, at: int, part: Hard, penalty: int) -> None:
        """Notes the penalty of a part."""
        most = penalty * part.most_missing() ** 2
        for literal in self.hurting[at]:
            self.known[literal] += most
            self.others[literal] -= 1

    def of(self, literals: Iterable[int], own: int = 0) -> List[Price]:
        """The prices of literals, of which each hurts so many parts that do not count."""
        return [inf if self.others[literal] > own else self.known[literal]
                for literal in literals]


def own_penalties(problem: Compiled) -> List[Optional[int]]:
    """The penalty of each hard part, or None where that is the one of all."""
    prices, most = Prices(problem), problem.penalty()
    found: List[Optional[int]] = [None] * len(problem.hard)
    for _ in range(ROUNDS):
        new = {}
        for at, part in enumerate(problem.hard):
            if found[at] is None:
                penalty = 1 + _least_step(part, prices)
                if penalty < most:
                    new[at] = int(penalty)
        for at, value in new.items():
            found[at] = value
            prices.settle(at, problem.hard[at], value)
        if not new:
            break
    return found


def _least_step(part: Hard, prices: Prices) -> Price:
    """The most that the best step costs which mends a part, or brings it nearer."""
    need, room = part.bound - part.least(), part.greatest() - part.bound
    if part.exact:
        return _equation_step(part, prices, need, room)
    if need <= 0:
        return 0
    if room < 0:
        return inf
    wanted = prices.of(part.wanted())
    sizes = [abs(c) for c, literals in part.terms if len(literals) == 1]
    steps = [price for price, size in zip(wanted, sizes) if size >= need]
    if part.alone():
        sums, count = 0, 0
        for size in sorted(sizes, reverse=True):
            sums, count = sums + size, count + 1
            if sums > room:
                break
        steps.append(sorted(wanted, reverse=True)[count - 1])
    return min(steps, default=inf)


def _equation_step(part: Hard, prices: Prices, need: int, room: int) -> Price:
    """The same of an equation: of unlike variables and one size, between its sums."""
    sizes = {abs(c) for c, _ in part.terms}
    variables = {abs(literal) for _, literals in part.terms for literal in literals}
    if len(sizes) != 1 or not part.alone() or len(variables) < len(part.terms):
        return inf
    size = sizes.pop()
    if need < 0 or room < 0 or need % size:
        return inf
    steps = []
    for sign, ahead, behind in (1, need, room), (-1, room, need):
        if ahead:
            literals = [sign * literal for literal in part.wanted()]
            steps.append(sorted(prices.of(literals, 1), reverse=True)[behind // size])
    return max(steps)


class Walk:
    """The walk from broken assignments of a problem. Sum 0 is that of the costs, and the others
    are those of the parts."""

    def __init__(self, problem: Compiled) -> None:
        self.problem, self.own, self.most = problem, own_penalties(problem), problem.penalty()
        self.occurs: Dict[int, List[Tuple[int, Product]]] = {}
        for at, terms in enumerate([problem.terms, *(part.terms for part in problem.hard)]):
            for term in terms:
                for literal in term[1]:
                    self.occurs.setdefault(abs(literal), []).append((at, term))

    def stuck(self, bits: Sequence[int]) -> List[Hard]:
        """The parts that an assignment breaks and that have no penalty of their own."""
        self._begin(bits)
        return [self.problem.hard[at] for at in self.broken if self.own[at] is None]

    def run(self, bits: Sequence[int]) -> List[int]:
        """An assignment that breaks no part, by steps from one that breaks none but those of
        penalties of their own. Each step lowers the energy by at least 1."""
        self._begin(bits)
        while self.broken:
            steps = [(self._rise(literal), literal) for literal in self._ways(min(self.broken))]
            rise, literal = min(steps, key=lambda step: step[0])
            assert rise < 0
            for at, change in self._changes(literal).items():
                self._move(at, change)
            self.truth[literal], self.truth[-literal] = True, False
        return list(map(int, self.truth[1:self.problem.variables + 1]))

    def energy(self, bits: Sequence[int]) -> int:
        """The least energy over all added bits of an assignment."""
        self._begin(bits)
        total = self.problem.constant + self.values[0]
        for at in self.broken:
            own = self.own[at]
            missing = self.problem.hard[at].missing(self.values[at + 1])
            total += (self.most if own is None else own) * missing ** 2
        return total

    def _begin(self, bits: Sequence[int]) -> None:
        """Sets an assignment."""
        ahead = [bit == 1 for bit in bits]
        self.truth = [False, *ahead, *(not bit for bit in reversed(ahead))]
        every = [self.problem.terms, *(part.terms for part in self.problem.hard)]
        self.values = [sum(c for c, literals in terms if all(map(self.truth.__getitem__, literals)))
                       for terms in every]
        self.broken = {at for at, part in enumerate(self.problem.hard)
                       if part.missing(self.values[at + 1])}

    def _ways(self, at: int) -> Iterator[int]:
        """The false literals of a broken part that bring its sum nearer."""
        part = self.problem.hard[at]
        sign = 1 if self.values[at + 1] < part.bound else -1
        return (sign * literal for literal in part.wanted() if not self.truth[sign * literal])

    def _changes(self, literal: int) -> Dict[int, int]:
        """How sums change where a false literal becomes true."""
        changes: Dict[int, int] = {}
        for at, (coefficient, literals) in self.occurs.get(abs(literal), ()):
            if all(self.truth[one] or one == literal for one in literals):
                sign = 1 if literal in literals else -1
                changes[at] = changes.get(at, 0) + sign * coefficient
        return changes

    def _rise(self, literal: int) -> Price:
        """What the energy rises by; more than all where a part is broken that is not to be."""
        total: Price = 0
        for at, change in self._changes(literal).items():
            if at == 0:
                total += change
                continue
            part, penalty = self.problem.hard[at - 1], self.own[at - 1]
            after = part.missing(self.values[at] + change) ** 2
            if penalty is None:
                total += inf if after else 0
            else:
                total += penalty * (after - part.missing(self.values[at]) ** 2)
        return total

    def _move(self, at: int, change: int) -> None:
        """Changes a sum."""
        self.values[at] += change
        if at and self.problem.hard[at - 1].missing(self.values[at]):
            self.broken.add(at - 1)
        elif at:
            self.broken.discard(at - 1)

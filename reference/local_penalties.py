"""Finds a penalty for each hard part: a second program beside the crate `local_penalties`.

A broken part is repaired by making a literal true. The penalty of the part is one more than what
this raises elsewhere: in the objective, in soft clauses, and in parts whose penalties are known.

    own = own_penalties(problem, most)      # of hard clauses and then of constraints; below most
"""
from functools import partial
from math import inf

MOST_ROUNDS = 8


def complement(literal):
    """The literal that is true where this one is false."""
    return literal[0], not literal[1]


def wanted(coefficient, literal):
    """The literal under which nothing of a product is missing."""
    return literal if coefficient > 0 else complement(literal)


def least_value(constraint):
    """The least that a sum can be."""
    return sum(min(c, 0) for c, _ in constraint.terms)


def greatest_value(constraint):
    """The most that a sum can be."""
    return sum(max(c, 0) for c, _ in constraint.terms)


def rises(problem):
    """How far objective and soft clauses can rise when a literal becomes true, where they can."""
    found = {}

    def rise(literal, size):
        found[literal] = found.get(literal, 0) + size
    for coefficient, literals in problem.objective:
        for one in literals:
            rise(wanted(coefficient, one), abs(coefficient))
    for weight, literals in problem.clauses:
        for one in literals if weight is not None else ():
            rise(complement(one), weight)
    return found


def greatest(prices, place):
    """The price at a place from 1 of the prices from the greatest to the least."""
    return sorted(prices, reverse=True)[place - 1]


def single(products):
    """Whether each product has one literal."""
    return all(len(literals) == 1 for _, literals in products)


class HardClause:
    """A hard clause."""

    def __init__(self, literals):
        self.literals = literals
        self.hurt = {complement(one) for one in literals}    # literals that can break it
        self.missing = 1                                     # the most that can be missing

    def found(self, price):
        """One more than what a repair costs; infinite where none is known."""
        return 1 + min(map(price, self.literals), default=inf)


class AtLeast:
    """A sum that is to be at least a bound."""

    def __init__(self, constraint):
        self.products = constraint.terms
        self.need = constraint.bound - least_value(constraint)
        self.spare = greatest_value(constraint) - constraint.bound
        self.hurt = {complement(wanted(c, one)) for c, literals in self.products for one in literals}
        self.missing = max(self.need, 0)

    def found(self, price):
        """One more than what a repair costs; infinite where none is known."""
        if self.need <= 0:
            return 1
        if self.spare < 0:
            return inf
        alone = [price(wanted(c, literals[0])) for c, literals in self.products
                 if len(literals) == 1 and abs(c) >= self.need]
        return 1 + min(alone + self.steps(price))

    def steps(self, price):
        """The price of a step towards the bound, in a list; none where products are longer."""
        if not single(self.products):
            return [inf]
        sizes = sorted((abs(c) for c, _ in self.products), reverse=True)
        place = next(j for j in range(1, len(sizes) + 1) if sum(sizes[:j]) > self.spare)
        return [greatest([price(wanted(c, one)) for c, (one,) in self.products], place)]


class Exactly:
    """A sum that is to be exactly a bound."""

    def __init__(self, constraint):
        self.products = constraint.terms
        self.need = constraint.bound - least_value(constraint)
        self.spare = greatest_value(constraint) - constraint.bound
        literals = {one for _, row in self.products for one in row}
        self.hurt = literals | set(map(complement, literals))
        self.missing = max(self.need, self.spare, 0)

    def even(self):
        """Whether each literal is one step of one size, and the bound is some number of steps."""
        sizes = {abs(c) for c, _ in self.products}
        variables = {row[0][0] for _, row in self.products}
        return (len(sizes) == 1 and single(self.products) and len(variables) == len(self.products)
                and self.need >= 0 and self.spare >= 0 and self.need % min(sizes) == 0)

    def found(self, price):
        """One more than what a step towards the bound costs; infinite where none is known."""
        if not self.even():
            return inf
        size = abs(self.products[0][0])
        up = [wanted(c, one) for c, (one,) in self.products]
        down = [complement(one) for one in up]
        sides = [greatest(map(price, row), far // size + 1)
                 for row, far, near in ((up, self.spare, self.need), (down, self.need, self.spare))
                 if near > 0]
        return 1 + max(sides)


def hard_parts(problem):
    """The hard clauses and then the constraints."""
    return ([HardClause(literals) for weight, literals in problem.clauses if weight is None]
            + [(Exactly if each.exact else AtLeast)(each) for each in problem.constraints])


def price_of(literal, rise, hurts, own, without):
    """What it costs at most to make a literal true; one part may be left out."""
    total = rise.get(literal, 0)
    for number, part in hurts.get(literal, ()):
        if number != without:
            total += inf if own[number] is None else own[number] * part.missing ** 2
    return total


def own_penalties(problem, most):
    """The penalty of each hard part that has one of its own, and none for each other part."""
    parts, rise, hurts = hard_parts(problem), rises(problem), {}
    for number, part in enumerate(parts):
        for literal in part.hurt:
            hurts.setdefault(literal, []).append((number, part))
    own = [None] * len(parts)
    for _ in range(MOST_ROUNDS):
        before = list(own)
        for number, part in enumerate(parts):
            if before[number] is not None:
                continue
            without = number if isinstance(part, Exactly) else None
            found = part.found(partial(price_of, rise=rise, hurts=hurts, own=before, without=without))
            if found < most:
                own[number] = found
        if own == before:
            break
    return own

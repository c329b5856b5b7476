"""Replaces conflicts and covers by hard clauses: a second program beside `conflict_clauses`.

A conflict is a sum of single literals, to be at least a bound, in which no two may be missing: any
two coefficients are together more than what may be missing in all. In a cover each one is enough.

    problem = without_conflicts(problem, covers)
"""
from copy import copy
from itertools import combinations

MOST_PRODUCTS, MOST_PAIRS = 1024, 2 ** 21


def missing(constraint):
    """How much of the greatest sum may be missing; below 0 where even that is too little."""
    return sum(max(c, 0) for c, _ in constraint.terms) - constraint.bound


def is_conflict(constraint):
    """Whether clauses of one and two literals say the same."""
    products, most = constraint.terms, missing(constraint)
    if constraint.exact or not 1 <= len(products) <= MOST_PRODUCTS or most < 0:
        return False
    sizes = sorted(abs(coefficient) for coefficient, _ in products)
    single = all(len(literals) == 1 for _, literals in products)
    return single and (len(sizes) == 1 or sizes[0] + sizes[1] > most)


def wanted(coefficient, literal):
    """The literal under which nothing of a product is missing."""
    variable, negated = literal
    return variable, negated != (coefficient < 0)


def clauses_of(constraint):
    """The clauses of a conflict, as they are written down, and how many are pairs."""
    most = missing(constraint)
    alone, paired = [], []
    for coefficient, literals in constraint.terms:
        place = alone if abs(coefficient) > most else paired
        place.append(wanted(coefficient, literals[0]))
    pairs = list(combinations(paired, 2))
    return [(one,) for one in alone] + pairs, len(pairs)


def is_cover(constraint):
    """Whether one clause says the same and has no more new nodes than there are slack bits."""
    products = constraint.terms
    need = constraint.bound - sum(min(c, 0) for c, _ in products)
    if constraint.exact or not 1 <= len(products) <= MOST_PRODUCTS or need < 1:
        return False
    return (all(len(literals) == 1 and abs(c) >= need for c, literals in products)
            and (len(products) - 1) // 2 <= max(missing(constraint), 0).bit_length())


def clause_of(constraint):
    """The clause of a cover, as it is written down."""
    return tuple(wanted(coefficient, literals[0]) for coefficient, literals in constraint.terms)


def without_conflicts(problem, covers=False):
    """The problem with hard clauses in place of its conflicts, while there is room for pairs.

    Covers become clauses too where that is asked for.
    """
    left, made = MOST_PAIRS, copy(problem)
    made.clauses, made.constraints = list(problem.clauses), []
    for constraint in problem.constraints:
        clauses, pairs = clauses_of(constraint) if is_conflict(constraint) else ([], left + 1)
        if pairs > left:
            if not (covers and is_cover(constraint)):
                made.constraints.append(constraint)
                continue
            clauses, pairs = [clause_of(constraint)], 0
        left -= pairs
        for clause in clauses:
            made.add_clause(None, clause)
    return made

"""Finds and proves least states of small models by trying all: a second program beside the solver.

    first_least(made), certified(made, state, text)      # made is a Model of translation.py
"""
import re
from itertools import product

from readings import Tokens, lines_of, value_of
from translation import add, complements, multiplied_out

MOST_BUSY, MOST_NODES, MOST_LITERALS, MOST_PRODUCTS = 12, 2 ** 12, 8, 2 ** 24
LITERAL = re.compile(rb'(~?)([0-9]+)')


def first_least(made, order=None):
    """The first least state, states being compared from node 0 on, or from the last of an order.

    None of a model too large. A node without a weight has the bit 0.
    """
    nodes = range(made.nodes) if order is None else reversed(order)
    busy = [node for node in nodes if node in made.linear]
    if len(busy) > MOST_BUSY or made.nodes > MOST_NODES:
        return None

    def state(bits):
        found = [0] * made.nodes
        for node, bit in zip(busy, bits):
            found[node] = bit
        return found
    return min(map(state, product((0, 1), repeat=len(busy))), key=made.energy)


def read_order(made, text):
    """The nodes of a model as a text orders their elimination."""
    tokens, order = Tokens(text, 'plain'), []
    while tokens.next()[0] is not None:
        node = tokens.number()
        if node not in range(made.nodes) or node in order:
            tokens.refuse('range')
        order.append(node)
    if len(order) < made.nodes:
        tokens.take()
    return order


def first_wide(made, order):
    """The first node of an order that has over 16 neighbours when it goes, and how many; or none."""
    near = {node: set() for node in range(made.nodes)}
    for i, j in made.couplers:
        near[i].add(j)
        near[j].add(i)
    for node in order:
        around = near.pop(node)
        if len(around) > 16:
            return node, len(around)
        for each in around:
            near[each] |= around - {each}
            near[each].discard(node)
    return None


def over_bits(made):
    """The energy as a sum of products of nodes: of spins, each is 2x - 1."""
    table = {}
    if made.target == 'qubo':
        weighed = [((node,), weight) for node, weight in made.linear.items()]
        weighed += list(made.couplers.items())
        for nodes, weight in weighed:
            add(table, tuple((node, False) for node in nodes), weight)
        return table
    for node, weight in made.linear.items():
        add(table, ((node, False),), 2 * weight)
        add(table, (), -weight)
    for (i, j), weight in made.couplers.items():
        add(table, ((i, False), (j, False)), 4 * weight)
        add(table, ((i, False),), -2 * weight)
        add(table, ((j, False),), -2 * weight)
        add(table, (), weight)
    return table


def line_of(made, words):
    """The coefficient of a line of a certificate and its literals, or none where it is not good."""
    found = [LITERAL.fullmatch(word) for word in words[1:]]
    coefficient = value_of(words[0])
    if coefficient is None or None in found:
        return None
    literals = {(int(each.group(2)), bool(each.group(1))) for each in found}
    within = all(node < made.nodes for node, _ in literals)
    return (coefficient, literals) if within and len(literals) <= MOST_LITERALS else None


def certified(made, state, text):
    """Whether a good text proves a state: no line is negative, and the bound is reached."""
    table = {}
    rows = [line_of(made, words) for _, words in lines_of(text, 'plain')]
    if None in rows or sum(2 ** complements(literals) for _, literals in rows) > MOST_PRODUCTS:
        return False
    for coefficient, literals in rows:
        if literals and coefficient < 0:
            return False
        if len({node for node, _ in literals}) == len(literals):
            add(table, tuple(sorted(literals)), coefficient)
    bound = table.get((), 0)
    return multiplied_out(table) == over_bits(made) and made.energy(state) == bound

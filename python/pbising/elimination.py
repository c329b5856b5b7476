"""Elimination of nodes: how wide models are, orders for `solve`, and certificates for `prove`.

When a node is eliminated, all its neighbours become neighbours of each other. The width of an order
is the greatest number of neighbours that a node has at its turn; the least one of all orders is
the treewidth. `solve` takes a width of at most 16, and a line of a certificate one of at most 7.
"""
from __future__ import annotations

import heapq
from dataclasses import dataclass
from typing import (Callable, Dict, FrozenSet, Iterator, List, Mapping, Optional, Sequence, Set,
                    Tuple)

from .errors import PbisingError
from .models import Model

SOLVE_WIDTH = 16
LINE_WIDTH = 7
FILL_NODES = 3000
Neighbours = Dict[int, Set[int]]


def widths(model: Model) -> Iterator[Tuple[int, int]]:
    """Each node from the last one on with its number of neighbours, as `solve` eliminates them
    where it is given no order."""
    below: List[Set[int]] = [set() for _ in range(model.nodes)]
    for i, j, _ in model.pairs():
        below[j].add(i)
    for node in reversed(range(model.nodes)):
        yield node, len(below[node])
        if below[node]:
            last = max(below[node])
            below[last] |= below[node] - {last}
        below[node] = set()


def file_width(model: Model, most: int = SOLVE_WIDTH) -> Tuple[int, int]:
    """The first node that is wider than `most` with its width, or else the widest node."""
    widest = (0, 0)
    for node, width in widths(model):
        if width > widest[1]:
            widest = node, width
        if width > most:
            break
    return widest


@dataclass
class Order:
    """All nodes in the order in which they are eliminated, its width, and how it was found."""

    nodes: List[int]
    width: int
    name: str


def elimination_order(model: Model, most: int = SOLVE_WIDTH) -> Order:
    """The order of least width of three: the file's, by least degree, and by least fill.

    Orders wider than `most` are given up; where all are, that is an error.
    """
    found = []
    width = file_width(model, most)[1]
    if width <= most:
        found.append(Order(list(reversed(range(model.nodes))), width, 'the order of the file'))
    ways: List[Tuple[str, Callable[[Neighbours, int], int]]] = [('least degree', _degree)]
    if len(model.fields) <= FILL_NODES:
        ways.append(('least fill', _fill))
    least = width
    for name, key in ways:
        nodes, width = _greedy(model, key, most)
        least = min(least, width)
        if width <= most:
            found.append(Order(nodes, width, name))
    if not found:
        raise PbisingError(f'too wide: in each order that was tried some node has {least} '
                           f'neighbours or more, and {most} is the most')
    return min(found, key=lambda order: order.width)


def _degree(near: Neighbours, node: int) -> int:
    return len(near[node])


def _fill(near: Neighbours, node: int) -> int:
    """How many pairs of neighbours are not neighbours of each other."""
    around = near[node]
    return sum(len(around) - 1 - len(around & near[other]) for other in around) // 2


def _greedy(model: Model, key: Callable[[Neighbours, int], int],
            most: int) -> Tuple[List[int], int]:
    """The order that takes at each turn a node of the least key, as far as it is not too wide."""
    near: Neighbours = {node: set() for node in range(model.nodes)}
    for i, j, _ in model.pairs():
        near[i].add(j)
        near[j].add(i)
    queue = [(key(near, node), node) for node in near]
    heapq.heapify(queue)
    order: List[int] = []
    width = 0
    while queue:
        value, node = heapq.heappop(queue)
        if node not in near:
            continue
        now = key(near, node)
        if now != value:
            heapq.heappush(queue, (now, node))
            continue
        width = max(width, len(near[node]))
        if width > most:
            return order, width
        order.append(node)
        for other in _eliminate(near, node):
            heapq.heappush(queue, (key(near, other), other))
    return order, width


def _eliminate(near: Neighbours, node: int) -> Set[int]:
    """Takes a node away, and joins its neighbours; gives these."""
    around = near.pop(node)
    for other in around:
        near[other] |= around
        near[other] -= {node, other}
    return around


Subset = FrozenSet[int]


class _Sum:
    """A function of bits: coefficients of sets of nodes, which count where all their bits are 1."""

    def __init__(self) -> None:
        self.coefficients: Dict[Subset, int] = {}
        self.sets: Dict[int, Set[Subset]] = {}

    def add(self, nodes: Subset, coefficient: int) -> None:
        """Adds to the coefficient of a set."""
        coefficient += self.coefficients.pop(nodes, 0)
        for node in nodes:
            self.sets.setdefault(node, set()).discard(nodes)
        if coefficient:
            self.coefficients[nodes] = coefficient
            for node in nodes:
                self.sets[node].add(nodes)

    def neighbours(self, node: int) -> List[int]:
        """The nodes that share a set with this one, ascending."""
        return sorted(set().union(*self.sets[node]) - {node})

    def take(self, node: int) -> Dict[Subset, int]:
        """Takes away the sets with a node; gives what they are without it."""
        taken = {nodes: self.coefficients[nodes] for nodes in list(self.sets[node])}
        for nodes, coefficient in taken.items():
            self.add(nodes, -coefficient)
        return {nodes - {node}: coefficient for nodes, coefficient in taken.items()}


def _values(part: Mapping[Subset, int], nodes: Sequence[int]) -> List[int]:
    """A function of these nodes at all lists of their bits, the first node's bit the lowest."""
    table = [0] * 2 ** len(nodes)
    for subset, coefficient in part.items():
        table[sum(1 << at for at, node in enumerate(nodes) if node in subset)] = coefficient
    for at in range(len(nodes)):
        for bits in range(len(table)):
            if bits >> at & 1:
                table[bits] += table[bits ^ 1 << at]
    return table


def _coefficients(table: Sequence[int], nodes: Sequence[int]) -> Iterator[Tuple[Subset, int]]:
    """The coefficients of the sets of these nodes, of a function given at all lists of bits."""
    table = list(table)
    for at in range(len(nodes)):
        for bits in range(len(table)):
            if bits >> at & 1:
                table[bits] -= table[bits ^ 1 << at]
    for bits, coefficient in enumerate(table):
        if coefficient:
            yield frozenset(n for at, n in enumerate(nodes) if bits >> at & 1), coefficient


Line = Tuple[int, List[str]]


def _products(table: Sequence[int], nodes: Sequence[int], literals: List[str]) -> Iterator[Line]:
    """Lines of a function that is never below 0: its least value, and what is left on each side."""
    low = min(table)
    if low:
        yield low, literals
    if max(table) > low:
        half = len(table) // 2
        for mark, side in ('~', table[:half]), ('', table[half:]):
            rest = [value - low for value in side]
            yield from _products(rest, nodes[:-1], literals + [f'{mark}{nodes[-1]}'])


Turn = Tuple[int, List[int], List[int]]


def _eliminated(energy: _Sum) -> Tuple[List[Line], List[Turn]]:
    """Eliminates all nodes; gives the lines, and each node with what its bit depends on."""
    lines: List[Line] = []
    turns: List[Turn] = []
    left = set(energy.sets)
    queue = [(len(energy.neighbours(node)), node) for node in left]
    heapq.heapify(queue)
    while queue:
        count, node = heapq.heappop(queue)
        if node not in left or count != len(energy.neighbours(node)):
            continue
        nodes = energy.neighbours(node)
        if count > LINE_WIDTH:
            raise PbisingError(f'each node left has {count} neighbours or more: '
                               f'a line holds {LINE_WIDTH + 1} literals')
        left.remove(node)
        table = _values(energy.take(node), nodes)
        turns.append((node, nodes, table))
        lines += _products([max(0, value) for value in table], nodes, [f'{node}'])
        lines += _products([max(0, -value) for value in table], nodes, [f'~{node}'])
        for subset, coefficient in _coefficients([min(0, value) for value in table], nodes):
            energy.add(subset, coefficient)
        for other in nodes:
            heapq.heappush(queue, (len(energy.neighbours(other)), other))
    return lines, turns


def _least_state(turns: Sequence[Turn], count: int) -> List[int]:
    """The bits on the way back: 1 where that is less."""
    state = [0] * count
    for node, nodes, table in reversed(turns):
        bits = sum(state[other] << at for at, other in enumerate(nodes))
        state[node] = int(table[bits] < 0)
    return state


@dataclass
class Certificate:
    """A bound that no energy is below, lines that show it, and a state that reaches it."""

    bound: int
    lines: List[Line]
    state: List[int]
    width: int

    @property
    def text(self) -> str:
        """The text that `prove` takes."""
        lines = (' '.join(map(str, [coefficient, *literals]))
                 for coefficient, literals in self.lines)
        return ''.join(f'{line}\n' for line in [self.bound, *lines])


def certificate(model: Model) -> Certificate:
    """A certificate of the least energy, by elimination, at each turn of a node with the fewest
    neighbours.

    All that an energy has of the node x is x * g, where g is a function of its neighbours. With the
    better bit of x that is min(0, g), which goes into the energy of the others, and the rest is
    never below 0:  x * g  =  min(0, g)  +  x * max(0, g)  +  ~x * max(0, -g)
    """
    constant, single, couplings = model.over_bits()
    energy = _Sum()
    for node in model.used():
        energy.add(frozenset([node]), single[node])
    for i, j, weight in zip(model.heads, model.tails, couplings):
        energy.add(frozenset((i, j)), weight)
    lines, turns = _eliminated(energy)
    bound = constant + energy.coefficients.get(frozenset(), 0)
    state = _least_state(turns, model.nodes)
    if model.energy(state) != bound:
        raise PbisingError(f'the state has the energy {model.energy(state)}, not {bound}')
    return Certificate(bound, lines, state, max((len(turn[1]) for turn in turns), default=0))

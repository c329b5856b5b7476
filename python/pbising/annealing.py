"""Simulated annealing, to try a model with.

Each read begins with a random state. A sweep offers each node its other bit, and each chain of a
Chimera graph the other bit for all its qubits; a move that costs energy is made the more seldom the
more it costs and the later it comes (Kirkpatrick, Gelatt and Vecchi, 1983). In the end moves that
lower the energy are made until there are none.

Nodes are offered their bits colour by colour, of a colouring in which no two coupled nodes have one
colour, so all of one colour may turn at once. That is what `annealing_arrays` does with numpy, for
all reads at once. Both forms take the same random numbers and compare the same numbers, so their
samples are the same.
"""
from __future__ import annotations

import math
import random
from functools import lru_cache
from itertools import accumulate, chain, repeat
from operator import add
from typing import Any, Iterable, Iterator, List, Optional, Sequence, Set, Tuple

from .errors import PbisingError
from .models import Model
from .progress import Progress

State = List[int]
LEVELS = 2 ** 16
EXACT = 2 ** 53
MANY = 2000


class Walk:
    """A state over bits, what the others add to the weight of each bit, and the best state met.

    Couplers ascend, so those of a node with greater ones follow each other, from `up[node]` to
    `up[node + 1]`; those with lesser ones stand in a list of their own, the lesser node and the
    weight in turn, from `2 * down[node]` on.
    """

    def __init__(self, model: Model) -> None:
        _, self.single, self.couplings = model.over_bits()
        self.heads, self.tails, self.nodes = model.heads, model.tails, model.nodes
        self.up, self.down = _starts(model.nodes, self.heads), _starts(model.nodes, self.tails)
        self.lesser = [0] * (2 * len(self.heads))
        lesser, free = self.lesser, [2 * at for at in self.down]
        for i, j, weight in zip(self.heads, self.tails, self.couplings):
            at = free[j]
            free[j] = at + 2
            lesser[at], lesser[at + 1] = i, weight
        near = (lesser[2 * a:2 * b:2] for a, b in zip(self.down, self.down[1:]))
        self.order = list(chain.from_iterable(by_colour(model.used(), colours(near))))
        self.chains = list(chain.from_iterable(chain_classes(model)))

    def run(self, seeds: Sequence[int], sweeps: int, progress: Progress) -> List[State]:
        """The best state of each read."""
        heats = heats_of(*self._extremes(), sweeps)
        return [self._read(random.Random(seed), heats, progress) for seed in seeds]

    def _read(self, uniform: random.Random, heats: Sequence[float], progress: Progress) -> State:
        state = [0] * self.nodes
        for node, byte in zip(self.order, uniform.randbytes(len(self.order))):
            state[node] = byte & 1
        self._begin(state)
        least, best = self.energy, state[:]
        for heat in heats:
            ranks = memoryview(uniform.randbytes(2 * (len(self.order) + len(self.chains))))
            self._sweep(0, heat, ranks.cast('H'))
            if self.energy < least:
                least, best = self.energy, self.state[:]
            progress.step(1, least)
        self._begin(best)
        while self._sweep(-1, -1, repeat(0)):
            pass
        return self.state

    def _begin(self, state: State) -> None:
        """Sets a state, and its energy less that of all bits 0."""
        self.state, self.field = state, self.single[:]
        field = self.field
        for i, j, weight in zip(self.heads, self.tails, self.couplings):
            if state[i]:
                field[j] += weight
            if state[j]:
                field[i] += weight
        self.energy = sum(single + own for bit, single, own
                          in zip(state, self.single, field) if bit) // 2

    def _near(self, node: int) -> Iterator[Tuple[int, int]]:
        """The nodes that are coupled with one, and the weights."""
        up = slice(self.up[node], self.up[node + 1])
        down = iter(self.lesser[2 * self.down[node]:2 * self.down[node + 1]])
        return chain(zip(self.tails[up], self.couplings[up]), zip(down, down))

    def _flip(self, node: int) -> int:
        """Turns a bit; gives what the energy rises by."""
        field, state = self.field, self.state
        if state[node]:
            state[node] = 0
            for j, weight in self._near(node):
                field[j] -= weight
            return -field[node]
        state[node] = 1
        for j, weight in self._near(node):
            field[j] += weight
        return field[node]

    def _sweep(self, free: int, heat: float, ranks: Iterable[int]) -> bool:
        """Makes each move that costs no more than what is free, or than its random number of heats;
        whether one was made."""
        state, field, flip, logs, made = self.state, self.field, self._flip, log_table(), False
        given = iter(ranks)
        for node, rank in zip(self.order, given):
            rise = -field[node] if state[node] else field[node]
            if rise <= free or rise <= heat * logs[rank]:
                self.energy += flip(node)
                made = True
        for qubits, rank in zip(self.chains, given):
            rise = sum(map(flip, qubits))
            if rise <= free or rise <= heat * logs[rank]:
                self.energy += rise
                made = True
            else:
                for qubit in qubits:
                    flip(qubit)
        return made

    def _extremes(self) -> Tuple[int, int]:
        """The greatest rise of a node, at most, and the least size of a weight."""
        single, sizes = [abs(w) for w in self.single], [abs(w) for w in self.couplings]
        totals = map(add, _totals(self.up, sizes),
                     _totals(self.down, (abs(weight) for weight in self.lesser[1::2])))
        return (max(map(add, single, totals), default=0),
                min(filter(None, chain(single, sizes)), default=0))


@lru_cache(maxsize=None)
def log_table() -> List[float]:
    """How many heats a move may cost at most, for each of the random numbers below 2^16."""
    return [-math.log((rank + 0.5) / LEVELS) for rank in range(LEVELS)]


def heats_of(most: int, least: int, sweeps: int) -> List[float]:
    """From a tenth of the greatest rise down to where the least one is rare, by equal factors."""
    hot, cold = (most or 1) / 10, (least or 1) / math.log(100)
    return [hot * (cold / hot) ** (at / max(sweeps - 1, 1)) for at in range(sweeps)]


def colours(near: Iterable[Sequence[int]]) -> List[int]:
    """A colour for each node, of the lesser ones that it is coupled with: the least that none of
    these has."""
    found: List[int] = []
    colour_of = found.__getitem__
    for lesser in near:
        taken, colour = set(map(colour_of, lesser)), 0
        while colour in taken:
            colour += 1
        found.append(colour)
    return found


def by_colour(nodes: Iterable[int], colour: Sequence[int]) -> List[List[int]]:
    """The nodes of each colour."""
    classes: List[List[int]] = [[] for _ in range(max(colour, default=-1) + 1)]
    for node in nodes:
        classes[colour[node]].append(node)
    return [nodes for nodes in classes if nodes]


def chain_classes(model: Model) -> List[List[List[int]]]:
    """The chains of more than one qubit, by colours: no two of one colour are coupled."""
    chains = [qubits for qubits in model.chains or () if len(qubits) > 1]
    owner = {qubit: at for at, qubits in enumerate(chains) for qubit in qubits}
    lesser: List[Set[int]] = [set() for _ in chains]
    for i, j in zip(model.heads, model.tails) if chains else ():
        ends = sorted({owner.get(i, -1), owner.get(j, -1)})
        if len(ends) == 2 and ends[0] >= 0:
            lesser[ends[1]].add(ends[0])
    colour = colours(sorted(near) for near in lesser)
    return [[chains[at] for at in found] for found in by_colour(range(len(chains)), colour)]


def _starts(nodes: int, ends: Sequence[int]) -> List[int]:
    """Where the couplers of each node begin, where they stand in the order of these ends."""
    counts = [0] * nodes
    for node in ends:
        counts[node] += 1
    return list(accumulate(counts, initial=0))


def _totals(starts: Sequence[int], sizes: Iterable[int]) -> Iterator[int]:
    """The sum of the sizes of each node's couplers, of which the first ones begin at `starts`."""
    before = list(accumulate(sizes, initial=0))
    return (before[b] - before[a] for a, b in zip(starts, starts[1:]))


def walk_of(model: Model) -> Any:
    """The form that serves for a model: that of numpy where it is at hand, the model is large, and
    64 bits hold all that is counted."""
    if model.nodes + model.couplers >= MANY and 16 * model.total() < EXACT:
        try:
            from .annealing_arrays import ArrayWalk
            return ArrayWalk(model)
        except ImportError:
            pass
    return Walk(model)


def anneal(model: Model, reads: int = 10, sweeps: int = 1000,
           seed: Optional[int] = 1) -> List[State]:
    """The best state that each read meets. The same seed gives the same answer, with and without
    numpy, which is used where it is at hand (`pip install pbising[fast]`) and the model is large.

    None of them need be a least state. `min(states, key=model.energy)` is the best one, and
    `model.decode(states).best` the one that costs least. What takes long is told on a terminal.
    """
    if reads < 1 or sweeps < 1:
        raise PbisingError('reads and sweeps are at least 1')
    uniform = random.Random(seed)
    seeds = [uniform.getrandbits(64) for _ in range(reads)]
    with Progress('anneal', reads * sweeps) as progress:
        states: List[State] = walk_of(model).run(seeds, sweeps, progress)
        return states

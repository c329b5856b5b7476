"""The sweeps of `annealing` with numpy.

All nodes of a colour are offered their bits at once. Where colours have few nodes each, as in dense
models, all that follow are asked which one turns next. So what a sweep takes is counted by colours
and by turns, and not by nodes.

It takes the same random numbers as `annealing.Walk`, and compares the same: whole numbers below
2^53 with products of two doubles. So the samples are the same.
"""
from __future__ import annotations

import random
from typing import Any, List, Sequence, Tuple

import numpy as np

from .annealing import State, chain_classes, heats_of, log_table
from .models import Model
from .progress import Progress

Array = Any
FEW, DENSE, ROW, SINGLE = 64, 4, 2000, 16
ROUNDS, TABLE = 256, 2 ** 24


def _array(numbers: Sequence[int]) -> Array:
    return np.fromiter(numbers, np.int64, len(numbers))


def _sorting(ends: Array) -> Array:
    """The order in which nodes ascend, and equal ones stay: by 16 digits of two after 16 others."""
    order = np.argsort((ends & 0xffff).astype(np.uint16), kind='stable')
    if ends.max(initial=0) < 2 ** 16:
        return order
    return order[np.argsort((ends[order] >> 16).astype(np.uint16), kind='stable')]


class Rows:
    """Lists of numbers one after the other, so many of each node."""

    def __init__(self, items: Array, counts: Array) -> None:
        self.items, self.counts = items, counts
        self.starts = np.cumsum(counts) - counts

    def of(self, nodes: Array) -> Tuple[Array, Array]:
        """The numbers of some nodes, and to which of these each belongs."""
        sizes = self.counts[nodes]
        ends = np.cumsum(sizes)
        at = np.arange(sizes.sum()) + np.repeat(self.starts[nodes] - (ends - sizes), sizes)
        return self.items[at], np.repeat(np.arange(len(nodes)), sizes)


def colours(lesser: Rows, greater: Rows) -> Array:
    """The colours that `annealing.colours` gives. Nodes of which all lesser neighbours have theirs
    get them at once; what many rounds leave is taken one by one."""
    waiting = lesser.counts.copy()
    found, ready = np.full(len(waiting), -1), np.flatnonzero(waiting == 0)
    for _ in range(ROUNDS):
        if len(ready) == 0:
            return found
        width = int(found.max()) + 2
        for part in np.array_split(ready, 1 + len(ready) * width // TABLE):
            near, owner = lesser.of(part)
            taken = np.zeros((len(part), width), bool)
            taken[owner, found[near]] = True
            found[part] = taken.argmin(axis=1)
        passed = np.bincount(greater.of(ready)[0], minlength=len(waiting))
        waiting -= passed
        ready = np.flatnonzero((waiting == 0) & (passed > 0))
    every, starts = found.tolist(), lesser.starts.tolist() + [len(lesser.items)]
    items = lesser.items.tolist()
    for node in np.flatnonzero(found < 0).tolist():
        near, colour = set(map(every.__getitem__, items[starts[node]:starts[node + 1]])), 0
        while colour in near:
            colour += 1
        every[node] = colour
    return np.array(every)


class Couplers:
    """The couplers of each place in the order of a sweep: those of place p stand from `starts[p]`
    to `starts[p + 1]`. Of a dense model there is a row of all weights for each place too."""

    def __init__(self, model: Model, weights: Array) -> None:
        self.heads, self.tails, nodes = _array(model.heads), _array(model.tails), model.nodes
        by_tail = _sorting(self.tails)
        down, up = (np.bincount(ends, minlength=nodes) for ends in (self.tails, self.heads))
        lesser = self.heads[by_tail]
        used = np.array(model.used(), np.int64)
        colour = colours(Rows(lesser, down), Rows(self.tails, up))[used]
        self.order = used[np.argsort(colour, kind='stable')]
        self.sizes: List[int] = [size for size in np.bincount(colour).tolist() if size]
        self.place = np.zeros(nodes, np.int64)
        self.place[self.order] = np.arange(len(self.order))
        self.starts = np.concatenate(([0], np.cumsum((down + up)[self.order])))
        self.near = np.zeros(2 * len(weights), np.int64)
        self.weights = np.zeros(2 * len(weights), np.int64)
        self._fill(self.tails[by_tail], down, lesser, weights[by_tail], np.zeros(nodes, np.int64))
        self._fill(self.heads, up, self.tails, weights, down)
        self.rows = self._dense()

    def _fill(self, nodes: Array, counts: Array, others: Array, weights: Array,
              before: Array) -> None:
        """Places couplers, which ascend by their nodes, behind so many of each."""
        first = np.cumsum(counts) - counts
        at = self.starts[self.place[nodes]] + before[nodes] + np.arange(len(nodes)) - first[nodes]
        self.near[at], self.weights[at] = self.place[others], weights

    def _dense(self) -> Any:
        count = len(self.order)
        if DENSE * len(self.near) < count * count:
            return None
        rows = np.zeros((count, count), np.int64)
        rows[np.repeat(np.arange(count), np.diff(self.starts)), self.near] = self.weights
        return rows

    def push(self, field: Array, at: int, step: int) -> None:
        """Adds what a bit adds to the others, where it changes by a step."""
        if self.rows is not None:
            field += self.rows[at] * step
        else:
            part = slice(self.starts[at], self.starts[at + 1])
            field[self.near[part]] += self.weights[part] * step

    def push_all(self, field: Array, places: Array, steps: Array) -> None:
        """The same of many bits."""
        near = Rows(np.arange(len(self.near)), np.diff(self.starts))
        at, owner = near.of(places)
        field += np.bincount(self.near[at], self.weights[at] * steps[owner],
                             len(field)).astype(np.int64)

    def sums(self, values: Array, lo: int, hi: int) -> Array:
        """For each of some places the sum of its weights times the values of the others."""
        starts = self.starts[lo:hi + 1]
        part = slice(starts[0], starts[-1])
        total = np.zeros(starts[-1] - starts[0] + 1, np.int64)
        np.cumsum(self.weights[part] * values.take(self.near[part], mode='wrap'), out=total[1:])
        return np.diff(total[starts - starts[0]])


class Chains:
    """Chains of one colour: their places one after the other, where each begins, and the couplers
    inside of them, each once."""

    def __init__(self, couplers: Couplers, chains: Sequence[Sequence[int]],
                 couplings: Array) -> None:
        place = couplers.place
        sizes = np.array(list(map(len, chains)))
        self.places = place[[qubit for qubits in chains for qubit in qubits]]
        self.owner = np.repeat(np.arange(len(chains)), sizes)
        self.begins = np.cumsum(sizes) - sizes
        owner = np.full(len(place), -1)
        owner[self.places] = self.owner
        left, right = place[couplers.heads], place[couplers.tails]
        inside = (owner[left] == owner[right]) & (owner[left] >= 0)
        self.left, self.right, self.of = left[inside], right[inside], owner[left[inside]]
        self.ties = couplings[inside]

    def rises(self, turn: Array, field: Array) -> Array:
        """What the energy rises by where each chain turns."""
        rises = np.add.reduceat((turn * field)[self.places], self.begins)
        np.add.at(rises, self.of, self.ties * turn[self.left] * turn[self.right])
        return rises


class ArrayWalk:
    """States over bits: `turn` is what each bit changes by where it turns, 1 or -1, and `field`
    what the energy rises by where it becomes 1. Blocks are places that follow each other: those of
    one colour, or of many with few places each. In a stale block the field is to be summed anew."""

    def __init__(self, model: Model) -> None:
        _, single, listed = model.over_bits()
        couplings, self.nodes = _array(listed), model.nodes
        self.couplers = Couplers(model, couplings)
        self.order = self.couplers.order
        self.single = _array(single)[self.order]
        everywhere = np.ones(len(self.order), np.int8)
        self.base = 2 * self.single + self.couplers.sums(everywhere, 0, len(self.order))
        self.blocks = _blocks(self.couplers.sizes)
        self.chains = [Chains(self.couplers, found, couplings) for found in chain_classes(model)]
        self.draws = len(self.order) + sum(len(found.begins) for found in self.chains)
        sizes = np.abs(np.concatenate((self.single, self.couplers.weights)))
        totals = np.concatenate(([0], np.cumsum(np.abs(self.couplers.weights))))
        totals = np.diff(totals[self.couplers.starts]) + np.abs(self.single)
        self.extremes = (int(totals.max(initial=0)),
                         int(sizes[sizes > 0].min(initial=2 ** 60)) % 2 ** 60)

    def run(self, seeds: Sequence[int], sweeps: int, progress: Progress) -> List[State]:
        """The best state of each read."""
        heats, logs = heats_of(*self.extremes, sweeps), np.array(log_table())
        return [self._read(random.Random(seed), heats, logs, progress) for seed in seeds]

    def _read(self, uniform: random.Random, heats: Sequence[float], logs: Array,
              progress: Progress) -> State:
        bits = np.frombuffer(uniform.randbytes(len(self.order)), np.uint8) & 1
        self._begin(1 - 2 * bits.astype(np.int8))
        least, best = self.energy, self.turn.copy()
        for heat in heats:
            ranks = np.frombuffer(uniform.randbytes(2 * self.draws), np.uint16)
            self._sweep(heat * logs[ranks])
            if self.energy < least:
                least, best = self.energy, self.turn.copy()
            progress.step(1, least)
        self._begin(best)
        while self._sweep(np.full(self.draws, -1.0)):
            pass
        state = np.zeros(self.nodes, np.int64)
        state[self.order] = self.turn < 0
        found: State = state.tolist()
        return found

    def _begin(self, turn: Array) -> None:
        """Sets a state, and its energy less that of all bits 0."""
        self.turn, self.field = turn, np.zeros(len(turn), np.int64)
        self.stale = [True] * len(self.blocks)
        self._freshen()
        self.energy = int((self.single + self.field)[turn < 0].sum()) // 2

    def _freshen(self) -> None:
        """Sums up the fields of all stale blocks."""
        for at, (lo, hi, _) in enumerate(self.blocks):
            if self.stale[at]:
                sums = self.couplers.sums(self.turn, lo, hi)
                self.field[lo:hi] = (self.base[lo:hi] - sums) >> 1
                self.stale[at] = False

    def _sweep(self, limits: Array) -> bool:
        """Makes each move that costs no more than its limit; whether one was made."""
        made = False
        for at, (lo, hi, one_colour) in enumerate(self.blocks):
            if self.stale[at]:
                sums = self.couplers.sums(self.turn, lo, hi)
                self.field[lo:hi] = (self.base[lo:hi] - sums) >> 1
                self.stale[at] = False
            if one_colour:
                rises = self.turn[lo:hi] * self.field[lo:hi]
                places = lo + np.flatnonzero(rises <= limits[lo:hi])
                self.energy += int(rises[places - lo].sum())
                self._turn(places, at)
                made = made or len(places) > 0
            else:
                made = self._run(lo, hi, limits) or made
        return self._sweep_chains(limits[len(self.order):]) or made

    def _run(self, lo: int, hi: int, limits: Array) -> bool:
        """Makes moves one after the other."""
        made = False
        while lo < hi:
            rises = self.turn[lo:hi] * self.field[lo:hi]
            cheap = rises <= limits[lo:hi]
            ahead = int(cheap.argmax())
            if not cheap[ahead]:
                break
            made = True
            lo += ahead
            self.energy += int(rises[ahead])
            step = self.turn[lo]
            self.turn[lo] = -step
            self.couplers.push(self.field, lo, step)
            lo += 1
        return made

    def _sweep_chains(self, limits: Array) -> bool:
        """Offers each chain the other bit for all its qubits."""
        made, lo = False, 0
        for chains in self.chains:
            self._freshen()
            rises = chains.rises(self.turn, self.field)
            cheap = rises <= limits[lo:lo + len(rises)]
            lo += len(rises)
            self.energy += int(rises[cheap].sum())
            self._turn(chains.places[cheap[chains.owner]], None)
            made = made or bool(cheap.any())
        return made

    def _turn(self, places: Array, own: Any) -> None:
        """Turns the bits of places: of a block, whose own field stays, or of chains."""
        steps = self.turn[places]
        self.turn[places] = -steps
        if ROW * len(places) < len(self.couplers.near):
            for at, step in zip(places.tolist(), steps.tolist()):
                self.couplers.push(self.field, at, step)
        else:
            self.stale = [at != own for at in range(len(self.blocks))]


def _blocks(sizes: Sequence[int]) -> List[Tuple[int, int, bool]]:
    """Where blocks begin and end, and whether they are of one colour, of the sizes of all
    colours."""
    blocks: List[Tuple[int, int, bool]] = []
    lo = 0
    for size in sizes:
        one_colour = size >= FEW
        if blocks and not one_colour and not blocks[-1][2]:
            blocks[-1] = (blocks[-1][0], lo + size, False)
        else:
            blocks.append((lo, lo + size, one_colour))
        lo += size
    return blocks

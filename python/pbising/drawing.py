"""Pictures of models on a graph of qubits, as SVG.

Each chain has a colour. Thick lines are the ties of a chain, black ones the couplings between
chains, and thin grey ones the joins of the graph that the model leaves alone. With a state the
qubits of bit 0 are hollow, and a broken chain is named so, with a red ring around each of its
qubits; dead parts are crossed out.

On a Chimera graph side 0 of a cell lies across it, and is joined to the cells above and below; side
1 stands in it, and is joined to the cells to the left and right. Of a graph that is a list a model
does not say the joins: the qubits of its chains stand in a circle, one chain after the other. Where
these are many, a chain is one dot, with its number, and lines are couplings between chains.
"""
from __future__ import annotations

from math import cos, pi, sin
from typing import Dict, Iterable, Iterator, List, Optional, Sequence, Tuple, Union

from .errors import PbisingError
from .graphs import Join, Shape, joins_of
from .models import Model

BLUE, ORANGE = '#0072b2', '#e69f00'
COLOURS = [BLUE, ORANGE, '#009e73', '#cc79a7', '#d55e00', '#56b4e9', '#8c6d31', '#6a51a3']
PITCH, RADIUS, MARGIN = 190, 13, 30
MOST_IN_CIRCLE, MOST_CHAINS = 64, 200

Point = Tuple[float, float]


class Svg(str):
    """The text of a picture, which a notebook shows."""

    def _repr_svg_(self) -> str:
        return str(self)


class _Cells:
    """A Chimera graph: all its qubits and joins, a cell beside the other."""

    def __init__(self, shape: Shape) -> None:
        self.shape = shape
        rows, self.cols, self.shore = shape
        self.width, self.height = self.cols * PITCH, rows * PITCH
        self.qubits: Sequence[int] = range(2 * rows * self.cols * self.shore)

    def at(self, qubit: int) -> Point:
        """The place of a qubit."""
        shore = self.shore
        cell, side, at = qubit // shore // 2, qubit // shore % 2, qubit % shore
        x, y = (MARGIN + PITCH * (n + 0.5) for n in (cell % self.cols, cell // self.cols))
        off = (at + 0.5 - shore / 2) * (0.78 * PITCH / shore)
        return (x + off, y) if side == 0 else (x, y + off)

    def joins(self) -> Iterable[Join]:
        """The joined qubits."""
        return joins_of(*self.shape)


class _Circle:
    """A graph that is a list: the qubits of chains, and the joins that the model uses."""

    def __init__(self, model: Model) -> None:
        self.qubits: Sequence[int] = [qubit for chain in model.chains or () for qubit in chain]
        self.joined = list(zip(model.heads, model.tails))
        self.places = {qubit: place for place, qubit in enumerate(self.qubits)}
        self.radius = max(PITCH / 2, len(self.qubits) * (3 * RADIUS) / (2 * pi))
        self.width = self.height = round(2 * self.radius)

    def at(self, qubit: int) -> Point:
        """The place of a qubit: the first one is on top, and the others follow clockwise."""
        turn = 2 * pi * self.places[qubit] / max(len(self.qubits), 1)
        middle = MARGIN + self.radius
        return middle + self.radius * sin(turn), middle - self.radius * cos(turn)

    def joins(self) -> Iterable[Join]:
        """The joined qubits."""
        return self.joined


def _laid_out(model: Model) -> Union[_Cells, _Circle]:
    """Where the qubits of a model are drawn."""
    if model.shape is not None:
        return _Cells(model.shape)
    if model.chains is None:
        raise PbisingError('this is no model on a graph')
    return _Circle(model)


def drawable(model: Model) -> bool:
    """Whether there is a picture of a model on a graph: where the graph is a list, of few chains.
    """
    return model.shape is not None or len(model.chains or ()) <= MOST_CHAINS


def _by_chains(model: Model, chains: Sequence[Sequence[int]]) -> Model:
    """A model that has one qubit for each chain, and the couplings between these."""
    owner = {qubit: node for node, chain in enumerate(chains) for qubit in chain}
    pairs = {(min(ends), max(ends)) for ends in zip(map(owner.__getitem__, model.heads),
                                                   map(owner.__getitem__, model.tails))
             if len(set(ends)) == 2}
    heads, tails = [i for i, _ in sorted(pairs)], [j for _, j in sorted(pairs)]
    return Model(model.kind, len(chains), dict.fromkeys(range(len(chains)), 0), heads, tails,
                 [1] * len(pairs), chains=[[node] for node in range(len(chains))])


def _line(a: Point, b: Point, colour: str, width: float) -> str:
    """A line between two places."""
    return (f'<line x1="{a[0]:.1f}" y1="{a[1]:.1f}" x2="{b[0]:.1f}" y2="{b[1]:.1f}" '
            f'stroke="{colour}" stroke-width="{width}"/>')


def _cross(at: Sequence[float]) -> Iterator[str]:
    """A cross over a dead part."""
    (x, y), arm = at, 9
    for turn in 1, -1:
        yield _line((x - arm, y - turn * arm), (x + arm, y + turn * arm), '#c00', 3)


def _dot(at: Point, fill: str, edge: str, ink: str, text: object) -> str:
    """A qubit with its number."""
    return (f'<circle cx="{at[0]:.1f}" cy="{at[1]:.1f}" r="{RADIUS}" fill="{fill}" {edge}/>'
            f'<text x="{at[0]:.1f}" y="{at[1] + 4:.1f}" fill="{ink}" '
            f'text-anchor="middle">{text}</text>')


def _label(at: Sequence[float], text: object) -> str:
    """A number on a white patch."""
    return (f'<rect x="{at[0] - 9:.1f}" y="{at[1] - 8:.1f}" width="18" height="16" rx="3" '
            f'fill="white"/><text x="{at[0]:.1f}" y="{at[1] + 4:.1f}" '
            f'text-anchor="middle">{text}</text>')


class Picture:
    """A model, whose chain each qubit is in, a state or none, what is dead, and whether the
    strengths of ties are told."""

    def __init__(self, model: Model, state: Optional[Sequence[int]] = None,
                 dead: Sequence[Sequence[int]] = (), strengths: bool = False) -> None:
        self.model, self.state, self.dead, self.strengths = model, state, dead, strengths
        self.layout, self.chains = _laid_out(model), model.chains or []
        self.weights: Dict[Tuple[int, int], int] = model.weights()
        self.broken = set(model.broken_chains(state)) if state else set()
        self.owner = {q: node for node, chain in enumerate(self.chains) for q in chain}

    def at(self, qubit: int) -> Point:
        """The place of a qubit."""
        return self.layout.at(qubit)

    def colour(self, qubit: int) -> str:
        """The colour of a qubit's chain."""
        return COLOURS[self.owner[qubit] % len(COLOURS)]

    def joins(self) -> Iterator[str]:
        """All joins, those of the model last."""
        weights = self.weights
        for a, b in sorted(self.layout.joins(), key=lambda pair: pair in weights):
            ends = self.at(a), self.at(b)
            if (a, b) not in weights:
                yield _line(*ends, '#ccc', 1)
            elif self.owner[a] == self.owner[b]:
                yield _line(*ends, self.colour(a), self.thickness(-weights[a, b]))
            else:
                yield _line(*ends, 'black', 2.5)

    def thickness(self, strength: int) -> float:
        """How thick a tie is drawn."""
        return 7 if not self.strengths else round(2 + 10 * strength / self.model.greatest(), 1)

    def told(self) -> Iterator[str]:
        """The strength of each tie, beside its middle."""
        for (a, b), weight in self.weights.items() if self.strengths else ():
            if a != b and self.owner[a] == self.owner[b]:
                yield _label([(4 * x + 5 * y) / 9 for x, y in zip(self.at(a), self.at(b))], -weight)

    def qubits(self) -> Iterator[str]:
        """All qubits."""
        for qubit in self.layout.qubits:
            used = qubit in self.owner
            if used and self.state and not self.state[qubit]:
                edge = f'stroke="{self.colour(qubit)}" stroke-width="3"'
                yield _dot(self.at(qubit), 'white', edge, 'black', qubit)
            else:
                yield _dot(self.at(qubit), self.colour(qubit) if used else 'white',
                           'stroke="#444"', 'white' if used else '#999', qubit)

    def rings(self) -> Iterator[str]:
        """A ring around each qubit of a broken chain."""
        for node in sorted(self.broken):
            for x, y in map(self.at, self.chains[node]):
                yield (f'<circle cx="{x:.1f}" cy="{y:.1f}" r="{RADIUS + 5}" fill="none" '
                       'stroke="#c00" stroke-width="2.5"/>')

    def crosses(self) -> Iterator[str]:
        """A cross on each dead qubit, and in the middle of each dead coupler."""
        for part in self.dead:
            ends = [self.at(qubit) for qubit in part]
            yield from _cross([sum(coordinate) / len(ends) for coordinate in zip(*ends)])

    def legend(self, top: int, across: int) -> Iterator[str]:
        """The colour of each node, so many of them in a row."""
        for node in range(len(self.chains)):
            x, y = MARGIN + self.step() * (node % across), top + 24 * (node // across)
            name = f'node {node}' + (', broken' if node in self.broken else '')
            yield (f'<rect x="{x}" y="{y - 11}" width="14" height="14" '
                   f'fill="{COLOURS[node % len(COLOURS)]}"/>'
                   f'<text x="{x + 20}" y="{y + 1}">{name}</text>')

    def step(self) -> int:
        """How far the names of nodes stand apart."""
        return 130 if self.broken else 74

    def lines(self) -> Iterator[str]:
        """The lines of the picture."""
        width, top = 2 * MARGIN + self.layout.width, 2 * MARGIN + self.layout.height + 2
        across = max(self.layout.width // self.step(), 1)
        height = top - 2 + 24 * max(-(-len(self.chains) // across), 1)
        yield (f'<svg xmlns="http://www.w3.org/2000/svg" width="{width}" height="{height}" '
               f'viewBox="0 0 {width} {height}" font-family="sans-serif" font-size="12">')
        yield f'<rect width="{width}" height="{height}" fill="white"/>'
        for part in (self.joins(), self.told(), self.qubits(), self.rings(), self.crosses(),
                     self.legend(top, across)):
            yield from part
        yield '</svg>'


def draw(model: Model, state: Optional[Sequence[int]] = None,
         dead: Sequence[Sequence[int]] = (), strengths: bool = False) -> Svg:
    """The picture. With `strengths` each tie is as thick as it is strong, and tells it."""
    chains = model.chains or ()
    if not drawable(model):
        raise PbisingError(f'the model has {len(chains)} chains, and a graph that is a list is '
                           f'drawn with at most {MOST_CHAINS}')
    if model.shape is not None or sum(map(len, chains)) <= MOST_IN_CIRCLE:
        picture = Picture(model, state, dead, strengths)
    else:
        bits = model.assignment(state, len(chains)) if state else None
        picture = Picture(_by_chains(model, chains), bits)
        picture.broken = set(model.broken_chains(state)) if state else set()
    lines: List[str] = list(picture.lines())
    return Svg(''.join(f'{line}\n' for line in lines))

"""Models: QUBO files, Ising files, and Ising files on a graph of qubits, whoever wrote them.

The kind is `qubo`, `ising`, or that of the graph: `chimera`, or `graph` where it is a list. A state
is a list of bits, one for each node, or for each qubit of the graph. In an Ising model bit 1 is the
spin +1, and bit 0 the spin -1. Energies count in the model's unit. Without figures the scale and
the unit are 1, the offset is 0, and there is no threshold.
"""
from __future__ import annotations

from dataclasses import dataclass, field
from fractions import Fraction
from itertools import chain as joined
from typing import Any, Dict, Iterable, List, Optional, Sequence, Tuple, Union

from .errors import PbisingError
from .rows import front_of, read_rows, weighed
from .texts import PathName, called, read_bytes, text_of, whole, write_bytes

FIGURES = ('scale', 'offset', 'threshold', 'unit', 'variables')
DOUBLES = 2 ** 53
Number = Union[int, float, Fraction]
Fields = Dict[int, Number]
Pairs = Dict[Tuple[int, int], Number]


@dataclass
class Size:
    """How large a model is: what `pbising.size` tells of a problem before its model is made."""

    nodes: int
    couplers: int
    scale: int
    offset: int
    threshold: Optional[int]
    unit: int
    variables: int
    least: int
    greatest: int


@dataclass(repr=False)
class Model:
    """The weights of a model, and what the lines before them say of it.

    `fields` has the weight of each node that has a row. The k-th pair is `heads[k]` and `tails[k]`,
    of the weight `couplings[k]`: each pair once, the lesser node first, ascending.
    """

    kind: str
    nodes: int
    fields: Dict[int, int]
    heads: List[int]
    tails: List[int]
    couplings: List[int]
    scale: int = 1
    offset: int = 0
    threshold: Optional[int] = None
    unit: int = 1
    variables: int = 0
    shape: Optional[Tuple[int, int, int]] = None
    chains: Optional[List[List[int]]] = None
    data: bytes = field(default=b'', compare=False)

    def __repr__(self) -> str:
        return f'<{type(self).__name__}: {self.kind}, {self.nodes} nodes, {self.couplers} couplers>'

    @property
    def couplers(self) -> int:
        """How many pairs have a row."""
        return len(self.couplings)

    @property
    def qubits(self) -> Optional[int]:
        """How many qubits the graph has, or None where the model is on no graph."""
        return None if self.chains is None else self.nodes

    def used(self) -> List[int]:
        """The nodes that a row or a chain names, ascending."""
        if len(self.fields) == self.nodes:
            return list(range(self.nodes))
        return sorted(set(self.fields).union(self.heads, self.tails, *(self.chains or ())))

    def pairs(self) -> Iterable[Tuple[int, int, int]]:
        """The two nodes and the weight of each pair, the lesser node first."""
        return zip(self.heads, self.tails, self.couplings)

    def energy(self, state: Sequence[int]) -> int:
        """The sum of the weights that count in a state, in the model's unit."""
        return weighed(self, state)

    def above(self, energy: int) -> bool:
        """Whether an energy lies above the threshold, as no least one of a feasible file does."""
        return self.threshold is not None and self.unit * energy > self.threshold

    def cost(self, energy: int) -> int:
        """The cost that a least state of this energy stands for."""
        return (self.unit * energy - self.offset) // self.scale

    def assignment(self, state: Sequence[int], count: Optional[int] = None) -> List[int]:
        """The bits of the variables, or of so many nodes: of a chain that of most qubits, on a tie
        its first one's."""
        count = self.variables if count is None else count
        if self.chains is None:
            return list(state[:count])
        return [_majority([state[q] for q in chain]) for chain in self.chains[:count]]

    def broken_chains(self, state: Sequence[int]) -> List[int]:
        """The nodes whose chains have qubits of both bits."""
        return [node for node, chain in enumerate(self.chains or ())
                if len({bool(state[q]) for q in chain}) > 1]

    def over_bits(self) -> Tuple[int, List[int], List[int]]:
        """A constant, a weight for each node and one for each pair, over bits, with the same sum
        in each state."""
        single = [0] * self.nodes
        for node, weight in self.fields.items():
            single[node] = weight
        if self.kind == 'qubo':
            return 0, single, self.couplings
        for i, j, weight in self.pairs():
            single[i] -= weight
            single[j] -= weight
        constant = sum(self.couplings) - sum(self.fields.values())
        return (constant, [2 * weight for weight in single],
                [4 * weight for weight in self.couplings])

    def weights(self) -> Dict[Tuple[int, int], int]:
        """All rows as one dict, as they are written: a node is the pair of itself."""
        rows = {(node, node): weight for node, weight in self.fields.items()}
        rows.update(zip(zip(self.heads, self.tails), self.couplings))
        return rows

    def qubo(self, as_cost: bool = False) -> Tuple[Pairs, Number]:
        """Weights over bits as a dict, and an offset, for `from_qubo` and `sample_qubo`.

        Energy plus offset is the cost of the state's assignment where the state is the best one
        for it, and unit and scale are 1. Else it is scale / unit times that cost; with `as_cost`
        weights and offset are divided, so that it is the cost itself.
        """
        constant, single, couplings = self.over_bits()
        by = self._one_cost(1) if as_cost else Fraction(1)
        weights = {(node, node): single[node] for node in self.used()}
        weights.update(zip(zip(self.heads, self.tails), couplings))
        return _divided(weights, by), _quotient(constant - Fraction(self.offset, self.unit), by)

    def ising(self, as_cost: bool = False) -> Tuple[Fields, Pairs, Number]:
        """Fields and couplings over spins as dicts, and an offset, for `from_ising` and
        `sample_ising`.

        All are whole, so a QUBO counts four times as much over spins. Energy plus offset is
        scale / unit times the cost, and four times that of a QUBO; with `as_cost` all are divided
        so that it is the cost itself.
        """
        times = 4 if self.kind == 'qubo' else 1
        by = self._one_cost(times) if as_cost else Fraction(1)
        fields, constant = self._over_spins()
        offset = constant - times * Fraction(self.offset, self.unit)
        couplings = dict(zip(zip(self.heads, self.tails), self.couplings))
        return _divided(fields, by), _divided(couplings, by), _quotient(offset, by)

    def to_bqm(self, as_cost: bool = False, labels: bool = False) -> Any:
        """The model as a `dimod.BinaryQuadraticModel`, of bits or of spins as the model is.

        Its variables are nodes, or with `labels` what `labels()` calls them. The offset is as
        `qubo` and `ising` say.
        """
        from .bridges import bqm_of
        return bqm_of(self, as_cost, labels)

    def names(self) -> List[Any]:
        """What the variables are called: x1, x2 .., where no problem is known."""
        return [f'x{number}' for number in range(1, self.variables + 1)]

    def labels(self) -> List[Any]:
        """What the nodes are called: the variables by their names, and each other node by its
        number behind the word node."""
        if self.chains is not None:
            raise PbisingError('on a graph the nodes are qubits, which have no labels')
        names, front = self.names(), 'node '
        while any(isinstance(name, str) and name.startswith(front) for name in names):
            front = f'_{front}'
        return [*names, *(f'{front}{node}' for node in range(self.variables, self.nodes))]

    @property
    def text(self) -> str:
        """The text that the model was read of, to the byte."""
        return text_of(self.data)

    def write(self, name: PathName) -> None:
        """Writes the text that the model was read of to a file."""
        write_bytes(name, self.data)

    def size(self) -> Size:
        """Nodes, couplers and figures, and the least and the greatest size of a weight not 0."""
        sizes = [abs(weight) for weight in self._all_weights() if weight]
        return Size(len(self.fields), self.couplers, self.scale, self.offset, self.threshold,
                    self.unit, self.variables, min(sizes, default=0), max(sizes, default=0))

    def greatest(self) -> int:
        """The greatest size of a weight."""
        return max(map(int.__abs__, self._all_weights()), default=0)

    def total(self) -> int:
        """The sum of the sizes of all weights, which no energy passes."""
        return sum(map(int.__abs__, self._all_weights()))

    def precision(self) -> str:
        """Whether doubles hold the weights, and each energy."""
        greatest, total = self.greatest(), self.total()
        if greatest > DOUBLES:
            return f'greatest weight {greatest}, above 2^53: doubles lose digits of weights'
        if total > DOUBLES:
            return (f'greatest weight {greatest}, and {total} in all, above 2^53: '
                    'doubles may lose digits of energies')
        return f'greatest weight {greatest}: doubles hold each energy'

    def _repr_html_(self) -> str:
        from .pictures import model_html
        return model_html(self)

    def _all_weights(self) -> Iterable[int]:
        return joined(self.fields.values(), self.couplings)

    def _one_cost(self, times: int) -> Fraction:
        """What a cost of 1 is in energy, which counts so many times."""
        return Fraction(times * self.scale, self.unit)

    def _over_spins(self) -> Tuple[Dict[int, int], int]:
        """Fields and a constant over spins, whose couplings are as they are: four times a QUBO."""
        if self.kind != 'qubo':
            return dict(self.fields), 0
        fields = {node: 2 * weight for node, weight in self.fields.items()}
        for i, j, weight in self.pairs():
            fields[i] = fields.get(i, 0) + weight
            fields[j] = fields.get(j, 0) + weight
        return fields, 2 * sum(self.fields.values()) + sum(self.couplings)


def load(name: PathName) -> Model:
    """The model of a file; `-` is the standard input."""
    return parse(read_bytes(name), called(name))


def parse(text: Union[bytes, str], name: str = 'model') -> Model:
    """The model of a text."""
    data = text.encode() if isinstance(text, str) else text
    rows = read_rows(name, data, beyond=None)
    said = _said(front_of(data))
    model = Model(**vars(rows), data=data)
    model.variables = rows.nodes
    for figure, value in said.figures.items():
        setattr(model, figure, value)
    if min(model.scale, model.unit) < 1 or not 0 <= model.variables <= model.nodes:
        raise PbisingError(f'{name}: scale and unit are at least 1, and variables are nodes')
    if rows.kind == 'ising' and said.qubits is not None:
        model.kind = 'graph' if said.shape is None else 'chimera'
        model.shape, model.chains = said.shape, said.chains
        _check_graph(name, model, said.qubits)
    return model


def _check_graph(name: str, model: Model, qubits: int) -> None:
    """Refuses a graph and chains that do not fit the model."""
    if qubits != model.nodes:
        raise PbisingError(f'{name}: the graph has {qubits} qubits, and the model {model.nodes}')
    chains = model.chains or []
    if any(not 0 <= qubit < model.nodes for chain in chains for qubit in chain):
        raise PbisingError(f'{name}: a chain names a qubit that is not below {model.nodes}')
    if len(chains) < model.variables or not all(chains):
        raise PbisingError(f'{name}: a variable has no chain')


class _Said:
    """The figures, the graph and the chains that comment lines tell."""

    def __init__(self) -> None:
        self.figures: Dict[str, int] = {}
        self.shape: Optional[Tuple[int, int, int]] = None
        self.qubits: Optional[int] = None
        self.chains: List[List[int]] = []

    def take(self, word: str, numbers: List[int]) -> None:
        """A line of a word and numbers."""
        if word in FIGURES and len(numbers) == 1:
            self.figures[word] = numbers[0]
        elif word == 'chimera' and len(numbers) == 3:
            rows, cols, shore = numbers
            self.shape, self.qubits = (rows, cols, shore), 2 * rows * cols * shore
        elif word == 'graph' and len(numbers) == 1:
            self.shape, self.qubits = None, numbers[0]
        elif word == 'chain' and numbers[0] == len(self.chains):
            self.chains.append(numbers[1:])


def _said(lines: List[str]) -> _Said:
    """What comment lines tell."""
    said = _Said()
    for words in (line.split() for line in lines if line.startswith('c ')):
        numbers = [n for n in (whole(word, None) for word in words[2:]) if n is not None]
        if numbers and len(numbers) + 2 == len(words):
            said.take(words[1], numbers)
    return said


def _majority(bits: Sequence[int]) -> int:
    """The bit that most have, and on a tie the first one."""
    ones = sum(map(bool, bits))
    return int(bool(bits[0]) if 2 * ones == len(bits) else 2 * ones > len(bits))


def _divided(weights: Dict[Any, Any], by: Fraction) -> Dict[Any, Any]:
    """All weights divided by one number."""
    return weights if by == 1 else {key: _quotient(w, by) for key, w in weights.items()}


def _quotient(number: Union[int, Fraction], by: Union[int, Fraction]) -> Number:
    """A whole number where it is one, else a double where that is exact, else a fraction."""
    value = Fraction(number) / by
    if value.denominator == 1:
        return int(value)
    return float(value) if Fraction(float(value)) == value else value

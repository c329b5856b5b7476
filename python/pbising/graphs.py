"""The Chimera graph: its joins, chains on it, and what of it does not work.

The qubit at the row i, the column j, the side u and the place k has the number
((i * cols + j) * 2 + u) * shore + k, as in `dwave_networkx.chimera_graph(rows, cols, shore)`.
"""
from __future__ import annotations

import json
from typing import Any, Iterable, Iterator, List, Mapping, Optional, Sequence, Set, Tuple

from .errors import PbisingError
from .texts import whole, tokens_of

Shape = Tuple[int, int, int]
Join = Tuple[int, int]


def joins_of(rows: int, cols: int, shore: int) -> Iterator[Join]:
    """The pairs of joined qubits, the lesser one first."""
    def number(row: int, col: int, side: int, at: int) -> int:
        return ((row * cols + col) * 2 + side) * shore + at

    for row in range(rows):
        for col in range(cols):
            for at in range(shore):
                for other in range(shore):
                    yield number(row, col, 0, at), number(row, col, 1, other)
                if row + 1 < rows:
                    yield number(row, col, 0, at), number(row + 1, col, 0, at)
                if col + 1 < cols:
                    yield number(row, col, 1, at), number(row, col + 1, 1, at)


def chain_map(chains: Mapping[int, Iterable[int]]) -> str:
    """The text of a map, for the key `map=`, of a dict of chains by nodes as `minorminer` finds it:
    `find_embedding(model.ising()[1], graph)`. Nodes in no coupler need a chain too."""
    nodes = sorted(chains)
    if nodes != list(range(len(nodes))):
        missing = next(n for n, node in enumerate(nodes + [None]) if n != node)
        raise PbisingError(f'the map has no chain of node {missing}: it has one for each node, '
                           'numbered from 0')
    lines = []
    for node in nodes:
        chain = list(chains[node])
        if not chain or not all(isinstance(qubit, int) or hasattr(qubit, '__index__')
                                for qubit in chain):
            raise PbisingError(f'the chain of node {node} is no list of qubits: {chain}')
        lines.append(' '.join(map(str, [node, *map(int, chain)])))
    return ''.join(f'{line}\n' for line in lines)


def dead(graph: Any, rows: int, cols: int, shore: int) -> str:
    """The text of the dead parts of a chip, for the key `dead=`, of what works.

    The graph has `nodes` and `edges` as one of networkx, or `nodelist` and `edgelist` as a sampler
    of dimod; or it is a list of qubits, or a pair of such a list and a list of couplers. Where no
    coupler is listed, all of working qubits work.
    """
    if hasattr(graph, 'nodelist'):
        parts = [*graph.nodelist, *graph.edgelist]
    elif hasattr(graph, 'edges'):
        parts = [*graph.nodes, *graph.edges]
    else:
        parts = _flat(graph)
    qubits, joins = 2 * rows * cols * shore, set(joins_of(rows, cols, shore))
    alone, pairs = _working(parts, qubits, joins)
    lines = [f'{qubit}' for qubit in range(qubits) if qubit not in alone]
    lines += [f'{a} {b}' for a, b in sorted(joins - pairs) if alone.issuperset((a, b))]
    return ''.join(f'{line}\n' for line in lines)


def _flat(graph: Iterable[Any]) -> List[Any]:
    """Qubits and couplers: as they are listed, or in a list of each."""
    parts = list(graph)
    if len(parts) == 2 and all(map(_is_list, parts)) and not _is_pair(parts[1]):
        parts = [*parts[0], *parts[1]]
    return parts


def _is_pair(part: Sequence[Any]) -> bool:
    """Whether a list is a coupler, and not a list of couplers."""
    return len(part) == 2 and not any(map(_is_list, part))


def _is_list(part: Any) -> bool:
    return isinstance(part, (list, tuple, set, frozenset))


def _working(parts: Iterable[Any], qubits: int, joins: Set[Join]) -> Tuple[Set[int], Set[Join]]:
    """The qubits and the couplers that work."""
    alone: Set[int] = set()
    pairs: Set[Join] = set()
    for part in parts:
        numbers = list(part) if _is_list(part) else [part]
        if not all(isinstance(q, int) and 0 <= q < qubits for q in numbers):
            raise PbisingError(f'{part}: the qubits of this graph are 0 to {qubits - 1}')
        pair = (min(numbers, default=0), max(numbers, default=0))
        if _is_list(part):
            if len(numbers) != 2 or pair not in joins:
                raise PbisingError(f'{part}: the graph has no such coupler')
            pairs.add(pair)
        alone.update(numbers)
    return alone, pairs or {pair for pair in joins if alone.issuperset(pair)}


def working_lists(text: str) -> List[Any]:
    """The qubits and couplers of the lists in a text, which JSON or Python wrote."""
    parts: List[Any] = []
    text = text.translate(str.maketrans('()', '[]')).strip()
    while text:
        value, end = json.JSONDecoder().raw_decode(text)
        if not isinstance(value, list):
            raise PbisingError(f'{value} is no list')
        parts += value
        text = text[end:].strip()
    return parts


def read_dead(text: str, name: str, shape: Shape) -> List[List[int]]:
    """The dead qubits and couplers of a list, each as a list of qubits."""
    qubits, joins = 2 * shape[0] * shape[1] * shape[2], set(joins_of(*shape))
    parts: List[List[int]] = []
    last: Optional[int] = None
    for line, word in tokens_of(text):
        qubit = whole(word)
        if line != last:
            parts.append([])
        last = line
        if qubit is None or not 0 <= qubit < qubits:
            raise PbisingError(f'{name}: line {line}: one qubit or two, below {qubits}, are named')
        part = parts[-1]
        part.append(qubit)
        if len(part) > 2 or len(part) == 2 and (min(part), max(part)) not in joins:
            raise PbisingError(f'{name}: line {line}: one qubit or two joined ones are named')
    return parts

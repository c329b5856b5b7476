"""Graphs of qubits as lists: the text of a graph, of what a sampler or another tool says of it.

A line of the text is `q` for a qubit, or `a b` for a coupler. Qubits are numbers from 0 to
2^20 - 1.
"""
from __future__ import annotations

import json
from typing import Any, Dict, Iterable, Iterator, List, Mapping, Optional, Set

from .errors import PbisingError
from .graphs import Join
from .models import Model
from .texts import tokens_of, whole

MOST_QUBITS = 2 ** 20


def hardware(graph: Any) -> str:
    """The text of a graph: its qubits and then its couplers, each once and in order.

    The graph has `nodelist` and `edgelist` as a sampler of dimod, or `nodes` and `edges` as one of
    networkx; or it is a dict of neighbours, or a list of pairs and of single qubits. A pair joins
    two qubits either way, and its qubits need not stand alone too.
    """
    qubits: Set[int] = set()
    couplers: Set[Join] = set()
    for part in _parts(graph):
        numbers = [_qubit(qubit, part) for qubit in part]
        qubits.update(numbers)
        if len(numbers) == 2:
            couplers.add((min(numbers), max(numbers)))
        if len(numbers) not in (1, 2) or len(set(numbers)) < len(numbers):
            raise PbisingError(f'{_told(part)} is no qubit, and no coupler of two qubits')
    lines = [f'{qubit}' for qubit in sorted(qubits)] + [f'{a} {b}' for a, b in sorted(couplers)]
    return ''.join(f'{line}\n' for line in lines)


def whole_map(chains: Mapping[Any, Any], model: Model, graph: str) -> Dict[int, Any]:
    """The chains of all nodes of a model, of a dict by its nodes or by their labels. A tool that
    is told of couplers alone has no chains of nodes without: each gets a qubit that is left."""
    coupled = {*model.heads, *model.tails}
    numbers = {key: _node_of(key, model.nodes) for key in chains}
    if None in numbers.values() or not coupled.issubset(numbers.values()):
        labels = {label: node for node, label in enumerate(model.labels())}
        others = [key for key in chains if key not in labels]
        if not others:
            numbers = {key: labels[key] for key in chains}
        elif None in numbers.values():
            told = next((key for key in others if numbers[key] is None), others[0])
            raise PbisingError(f'the map has a chain of {told!r}, and no node is called so')
    found = {node: chains[key] for key, node in numbers.items() if node is not None}
    left = iter(sorted(_qubits_of(graph).difference(*found.values())))
    for node in sorted(set(range(model.nodes)).difference(found)):
        qubit = None if node in coupled else next(left, None)
        if qubit is None:
            raise PbisingError(f'the map has no chain of node {node}' +
                               (', which has couplers' if node in coupled else
                                ', and the graph no qubit left for it'))
        found[node] = [qubit]
    return found


def _node_of(key: Any, nodes: int) -> Optional[int]:
    """The number below a bound that a key is, or None; bool is none."""
    number = key.__index__() if hasattr(key, '__index__') and not isinstance(key, bool) else -1
    return int(number) if 0 <= number < nodes else None


def _qubits_of(text: str) -> Set[int]:
    """The qubits that the text of a graph names."""
    numbers = (whole(word) for _, word in tokens_of(text))
    return {number for number in numbers if number is not None}


def listed(text: str) -> Any:
    """The graph of a text: JSON, or a list of edges, a line of one qubit or two each.

    JSON is a list, a dict of neighbours, or has `nodelist` and `edgelist`, or `nodes` and `edges`
    or `links` as networkx writes them.
    """
    if not text.lstrip().startswith(('{', '[')):
        return _edges(text)
    try:
        graph = json.loads(text)
    except ValueError as fault:
        raise PbisingError(f'this is no JSON: {fault}') from None
    if isinstance(graph, dict):
        for nodes, edges in ('nodelist', 'edgelist'), ('nodes', 'edges'), ('nodes', 'links'):
            if isinstance(graph.get(nodes), list) and isinstance(graph.get(edges), list):
                return [*map(_node, graph[nodes]), *map(_link, graph[edges])]
    return graph


def _edges(text: str) -> List[List[int]]:
    """The lines of a list of edges; those that begin with # or c are comments."""
    lines: List[List[int]] = []
    last = None
    kept = '\n'.join('' if line.lstrip().startswith('#') else line for line in text.split('\n'))
    for number, word in tokens_of(kept):
        qubit = whole(word)
        if qubit is None:
            raise PbisingError(f'line {number}: {word} is no number of a qubit')
        if number != last:
            lines.append([])
        lines[-1].append(qubit)
        last = number
    return lines


def _node(node: Any) -> Any:
    """A node as networkx writes it in JSON, or as it is."""
    return node.get('id') if isinstance(node, dict) else node


def _link(link: Any) -> Any:
    """An edge as networkx writes it in JSON, or as it is."""
    return [link.get('source'), link.get('target')] if isinstance(link, dict) else link


def _parts(graph: Any) -> Iterator[List[Any]]:
    """The qubits and couplers of a graph, each as a list."""
    graph = graph.tolist() if hasattr(graph, 'tolist') else graph
    if hasattr(graph, 'nodelist') and hasattr(graph, 'edgelist'):
        parts: Iterable[Any] = [*graph.nodelist, *graph.edgelist]
    elif hasattr(graph, 'nodes') and hasattr(graph, 'edges'):
        parts = [*_called(graph.nodes), *_called(graph.edges)]
    elif isinstance(graph, Mapping):
        parts = _of_neighbours(graph)
    else:
        try:
            parts = iter(graph)
        except TypeError:
            raise PbisingError(f'{_told(graph)} is no graph: it has no nodelist and edgelist, no '
                               'nodes and edges, and is no dict of neighbours or list of pairs') \
                from None
    for part in parts:
        part = part.tolist() if hasattr(part, 'tolist') else part
        yield list(part) if isinstance(part, (list, tuple, set, frozenset)) else [part]


def _called(part: Any) -> Iterable[Any]:
    """What a graph has as `nodes` or `edges`, which some give by a call alone."""
    found: Iterable[Any] = part if hasattr(part, '__iter__') else part()
    return found


def _of_neighbours(graph: Mapping[Any, Any]) -> Iterator[Any]:
    """The parts of a dict of neighbours; JSON writes its keys as texts."""
    for qubit, others in graph.items():
        key = whole(qubit) if isinstance(qubit, str) else qubit
        yield qubit if key is None else key
        try:
            found = list(others)
        except TypeError:
            raise PbisingError(f'{_told(others)} is no list of the neighbours of {_told(qubit)}') \
                from None
        yield from ((key, other) for other in found)


def _qubit(qubit: Any, part: List[Any]) -> int:
    """The number of a qubit; bool is none."""
    number = _node_of(qubit, MOST_QUBITS)
    if number is None:
        at = '' if len(part) == 1 else f' of {_told(part)}'
        raise PbisingError(f'{_told(qubit)}{at} is no number of a qubit, from 0 to 2^20 - 1')
    return number


def _told(part: Any) -> str:
    """A part as an error tells it, in one short line."""
    if isinstance(part, list) and len(part) == 1:
        part = part[0]
    text = repr(tuple(part) if isinstance(part, list) else part)
    return text if len(text) <= 60 else f'{text[:57]}...'

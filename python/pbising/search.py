"""Least states of small models, by trying all states but those that cannot be less."""
from __future__ import annotations

from collections import defaultdict
from typing import Dict, Iterator, List, Mapping, Optional, Sequence, Tuple

from .errors import PbisingError
from .models import Model

MOST = 24
Weights = Mapping[Tuple[int, int], int]


def least_bits(weights: Weights, count: int) -> List[int]:
    """The first least list of so many bits, weights being those of single bits and of pairs."""
    later: List[List[Tuple[int, int]]] = [[] for _ in range(count)]
    for (i, j), weight in weights.items():
        if i != j:
            later[i].append((j, weight))
    falls = [sum(min(weight, 0) for _, weight in pairs) for pairs in later]
    best: Optional[int] = None
    found: List[int] = []

    def descend(energy: int, fields: List[int], bits: List[int]) -> None:
        """Tries all bits behind these ones, where they may still give less than the best."""
        nonlocal best, found
        at = len(bits)
        bound = energy + sum(min(fields[i] + falls[i], 0) for i in range(at, count))
        if best is not None and bound >= best:
            return
        if at == count:
            best, found = energy, bits
            return
        descend(energy, fields, bits + [0])
        fields, field = fields[:], fields[at]
        for j, weight in later[at]:
            fields[j] += weight
        descend(energy + field, fields, bits + [1])

    descend(0, [weights.get((i, i), 0) for i in range(count)], [])
    return found


def least_state(model: Model) -> List[int]:
    """The first least state of a model of at most 24 nodes; nodes without weights are 0."""
    used = model.used()
    if len(used) > MOST:
        raise PbisingError(f'{len(used)} nodes have too many states to try them: at most {MOST}')
    return completed(model, {node: 0 for node in set(range(model.nodes)).difference(used)})


def completed(model: Model, known: Mapping[int, int]) -> List[int]:
    """The state of least energy that has these bits.

    Nodes that are missing fall into groups that no coupler joins, of at most 24 nodes each.
    """
    missing = [node for node in range(model.nodes) if node not in known]
    state = dict(known)
    if missing:
        _, single, couplings = model.over_bits()
        fields, between = _under(model, single, couplings, known)
        for group in _groups(missing, between):
            state.update(zip(group, _least_of(group, fields, between)))
    return [state[node] for node in range(model.nodes)]


Between = Dict[int, Dict[int, int]]


def _under(model: Model, single: Sequence[int], couplings: Sequence[int],
           known: Mapping[int, int]) -> Tuple[Dict[int, int], Between]:
    """The weight of each node that is missing, and those of their pairs."""
    fields: Dict[int, int] = dict(enumerate(single))
    between: Between = defaultdict(dict)
    for i, j, weight in zip(model.heads, model.tails, couplings):
        if i in known:
            i, j = j, i
        if i in known:
            continue
        if j not in known:
            between[i][j] = between[j][i] = weight
        elif known[j]:
            fields[i] += weight
    return fields, between


def _groups(missing: Sequence[int], between: Between) -> Iterator[List[int]]:
    """The missing nodes in groups that no coupler joins."""
    left = dict.fromkeys(missing)
    for first in missing:
        group, front = [], [first]
        while front:
            node = front.pop()
            if node in left:
                del left[node]
                group.append(node)
                front.extend(between.get(node, ()))
        if group:
            yield sorted(group)


def _least_of(group: Sequence[int], fields: Mapping[int, int], between: Between) -> List[int]:
    """The bits of nodes that have the least energy."""
    if len(group) > MOST:
        raise PbisingError(f'{len(group)} nodes that are coupled are missing: '
                           '`extend` gives the state of an assignment')
    place = {node: at for at, node in enumerate(group)}
    weights = {(at, at): fields[node] for node, at in place.items()}
    for node, at in place.items():
        for other, weight in between.get(node, {}).items():
            if node < other:
                weights[at, place[other]] = weight
    return least_bits(weights, len(group))

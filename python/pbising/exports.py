"""Models in the layouts that other tools read."""
from __future__ import annotations

from typing import Iterator

from .models import DOUBLES, Model

ROOM = 10 ** 18


def to_coo(model: Model) -> Iterator[str]:
    """The lines of dimod's COO: `dimod.serialization.coo.load`.

    A QUBO has the vartype BINARY, an Ising model SPIN. Nodes keep their numbers, and each node that
    has a row keeps one, so that samples name it.
    """
    yield '# vartype=BINARY' if model.kind == 'qubo' else '# vartype=SPIN'
    for node, weight in model.fields.items():
        yield f'{node} {node} {weight}'
    for i, j, weight in model.pairs():
        yield f'{i} {j} {weight}'


def to_qpbo(model: Model) -> Iterator[str]:
    """The lines of toulbar2's format of quadratic pseudo-Boolean functions.

    Variables are the model's nodes, or the qubits that have weights, in their order, numbered from
    1. An Ising model is written over bits, so a value 1 is the spin +1. The format counts each pair
    twice, so its weight is halved.
    """
    _, single, couplings = model.over_bits()
    used = model.used()
    place = {node: at for at, node in enumerate(used, 1)}
    alone = [node for node in used if single[node]]
    yield f'{len(used)} {len(alone) + sum(map(bool, couplings))}'
    for node in alone:
        yield f'{place[node]} {place[node]} {single[node]}'
    for i, j, weight in zip(model.heads, model.tails, couplings):
        if weight:
            yield f'{place[i]} {place[j]} {_half(weight)}'


def qpbo_notes(model: Model) -> Iterator[str]:
    """What is to be known of a model in that format."""
    constant, single, couplings = model.over_bits()
    if constant:
        yield f"energy = optimum {'+-'[constant < 0]} {abs(constant)}"
    if sum(abs(weight) for weight in [*single, *couplings]) * 10 ** 7 > ROOM:
        yield 'the weights are wide: call toulbar2 with -precision=1'
    if model.total() > DOUBLES:
        yield model.precision()


def _half(weight: int) -> str:
    """Half of a whole number, as text."""
    sign = '-' if weight < 0 else ''
    return f'{sign}{abs(weight) // 2}' + ('.5' if weight % 2 else '')

"""Broken samples, walked to assignments that break nothing: `model.decode(samples, repair=True)`.

A walk makes one literal after the other true. Each step lowers the energy that the assignment can
have, so it ends at a cost below the energy of the sample. It leads from each sample whose broken
parts all have a penalty of their own by `penalty=local`, whichever penalties the model has.
"""
from __future__ import annotations

from dataclasses import replace
from typing import Dict, Iterable, List, Mapping

from .decoding import Decoded, Judged, excess
from .models import Model
from .parts import compiled_of
from .penalties import Walk
from .samples import written
from .sources import Source


def walk_of(source: Source, keys: Mapping[str, str]) -> Walk:
    """The walk of a problem that is compiled with some keys."""
    return Walk(compiled_of(source.problem, keys))


def repaired(model: Model, source: Source, keys: Mapping[str, str],
             samples: Iterable[Decoded]) -> List[Decoded]:
    """The samples, those of infinite cost repaired where a walk leads on from them; the others stay
    as they are."""
    walk = walk_of(source, keys) if source.has_parts else None
    known: Dict[str, Decoded] = {}
    found = []
    for one in samples:
        if walk is None or one.feasible:
            found.append(one)
            continue
        text = written(one.state)
        if text not in known:
            known[text] = _repaired(model, source, walk, one)
        found.append(replace(known[text], occurrences=one.occurrences))
    return found


def _repaired(model: Model, source: Source, walk: Walk, one: Decoded) -> Decoded:
    """One sample that is broken. It walks with the bits of soft constraints that it has."""
    bits = model.assignment(one.state, walk.problem.variables)
    stuck = sorted({part.line for part in walk.stuck(bits)})
    if stuck:
        return replace(one, stuck=stuck)
    judged = Judged(source, walk.run(bits)[:model.variables], None)
    cost = judged.verdict.cost
    if cost is None:
        return one
    return replace(one, assignment=judged.bits, cost=cost, judged=judged, sampled=one.assignment,
                   excess=excess(model, cost, one.energy))

"""To dimod and back: models and decoded samples as dimod has them, and problems of its models.

Of dimod is used what all its versions have: `from_qubo`, `from_ising` and the `linear`,
`quadratic`, `offset` and `vartype` of a model, and `SampleSet.from_samples`.
"""
from __future__ import annotations

import importlib
from typing import TYPE_CHECKING, Any, Dict, Hashable, List, Mapping, Tuple

from .errors import PbisingError
from .sources import Source
from .writers import from_constraints, from_ising, from_qubo

if TYPE_CHECKING:
    from .decoding import Decoding
    from .models import Model

Label = Hashable


def _dimod() -> Any:
    try:
        return importlib.import_module('dimod')
    except ImportError:
        raise PbisingError('dimod is not installed: pip install dimod') from None


def bqm_of(model: Model, as_cost: bool, labels: bool) -> Any:
    """A model as a `BinaryQuadraticModel`, of nodes or of labels."""
    kinds = _dimod().BinaryQuadraticModel
    names = model.labels() if labels else range(model.nodes)
    if model.kind == 'qubo':
        weights, offset = model.qubo(as_cost)
        return kinds.from_qubo(_named(weights, names), float(offset))
    fields, couplings, offset = model.ising(as_cost)
    alone = {names[node]: field for node, field in fields.items()}
    return kinds.from_ising(alone, _named(couplings, names), float(offset))


def _named(pairs: Mapping[Tuple[int, int], Any], names: Any) -> Dict[Tuple[Any, Any], Any]:
    """Weights of pairs of nodes, by what these are called."""
    return {(names[i], names[j]): weight for (i, j), weight in pairs.items()}


def sampleset_of(decoding: Decoding) -> Any:
    """Decoded samples as a `SampleSet`: the bits of the variables by their labels, the cost as the
    energy (infinite where it is), and vectors of the feasible ones and of the model's energies."""
    samples = list(decoding)
    names = samples[0].names if samples else []
    costs = [float('inf') if one.cost is None else one.cost for one in samples]
    return _dimod().SampleSet.from_samples(
        ([one.assignment for one in samples], names), 'BINARY', costs,
        num_occurrences=[one.occurrences for one in samples],
        is_feasible=[one.feasible for one in samples],
        model_energy=[one.energy for one in samples])


def from_bqm(bqm: Any) -> Source:
    """A problem of a `dimod.BinaryQuadraticModel`, over bits or over spins as it is.

    `from_qubo(*bqm.to_qubo())` says the same over bits. Fractions are refused:
    `scaled(bqm.to_qubo()[0], 100)` rounds them.
    """
    _check(bqm, 'a binary quadratic model', ('linear', 'quadratic', 'offset', 'vartype'))
    if _vartype(bqm.vartype) == 'SPIN':
        return from_ising(dict(bqm.linear), dict(bqm.quadratic), bqm.offset)
    weights = {(label, label): weight for label, weight in bqm.linear.items()}
    return from_qubo({**weights, **dict(bqm.quadratic)}, bqm.offset)


def from_cqm(cqm: Any) -> Source:
    """A problem of a `dimod.ConstrainedQuadraticModel` of binary variables: its constraints become
    hard ones, and their labels do not stay."""
    _check(cqm, 'a constrained quadratic model', ('objective', 'constraints', 'vartype'))
    rows: List[Tuple[Any, str, Any]] = []
    for label, constraint in cqm.constraints.items():
        side, soft = constraint.lhs, getattr(constraint.lhs, 'is_soft', bool)
        if soft():
            raise PbisingError(f'the constraint {label!r} is soft: dimod charges its violation, '
                               'and a weight of `from_constraints` is charged as a whole')
        sense = getattr(constraint.sense, 'value', constraint.sense)
        rows.append((_terms(cqm, side), sense, constraint.rhs - side.offset))
    objective = _terms(cqm, cqm.objective)
    return from_constraints(rows, {**objective, (): cqm.objective.offset})


def _terms(cqm: Any, model: Any) -> Dict[Any, Any]:
    """The coefficients of a sum by products."""
    for label in model.linear:
        if _vartype(cqm.vartype(label)) != 'BINARY':
            raise PbisingError(f'the variable {label!r} is {_vartype(cqm.vartype(label))}: '
                               '`from_cqm` takes those that are BINARY')
    return {**{(label,): weight for label, weight in model.linear.items()},
            **dict(model.quadratic)}


def _check(found: Any, wanted: str, parts: Tuple[str, ...]) -> None:
    """Refuses what has not the parts of a model."""
    if not all(hasattr(found, part) for part in parts):
        raise PbisingError(f'a {type(found).__name__} is no {wanted[2:]} of dimod')


def _vartype(vartype: Any) -> str:
    """The name of a type of variables."""
    return str(getattr(vartype, 'name', vartype))

"""Weights with fractions, as whole numbers."""
from __future__ import annotations

from fractions import Fraction
from typing import Any, Iterable, Mapping, NamedTuple

from .errors import PbisingError


class Scaled(NamedTuple):
    """Rounded weights, the factor that they were multiplied by, and the most that rounding changes
    a sum of some of them by, in what the weights counted before.

    The weights are as those that were given: a dict by the same keys, or a list. What costs C with
    them cost C / times before, but for this error at most.
    """

    weights: Any
    times: Any
    error: float


def scaled(weights: Any, times: Any) -> Scaled:
    """Weights as whole numbers for the writers: each is multiplied by the same number, and rounded.

    `from_qubo(scaled({('a', 'b'): 0.25}, 100).weights)` has the weight 25. Weights are a dict, a
    list or a matrix.
    """
    by = _fraction(times, 'the factor')
    if by <= 0:
        raise PbisingError(f'the factor {times} is not above 0')
    rounded = _each(weights, lambda weight: round(weight * by))
    off: Fraction = sum(_flat(_each(weights, lambda weight: abs(weight * by - round(weight * by)))),
                        Fraction(0))
    return Scaled(rounded, times, float(off / by))


def _each(weights: Any, change: Any) -> Any:
    """All weights, changed."""
    weights = weights.tolist() if hasattr(weights, 'tolist') else weights
    if isinstance(weights, Mapping):
        return {key: change(_fraction(weight, key)) for key, weight in weights.items()}
    if isinstance(weights, (list, tuple)):
        return [_each(weight, change) for weight in weights]
    return change(_fraction(weights, 'a weight'))


def _flat(weights: Any) -> Iterable[Fraction]:
    """All weights in a row."""
    if isinstance(weights, Mapping):
        yield from weights.values()
    elif isinstance(weights, list):
        for weight in weights:
            yield from _flat(weight)
    else:
        yield weights


def _fraction(weight: Any, what: Any) -> Fraction:
    """A number, exactly."""
    try:
        return Fraction(weight.item() if hasattr(weight, 'item') else weight)
    except (TypeError, ValueError, OverflowError):
        raise PbisingError(f'{what}: {weight!r} is no number') from None

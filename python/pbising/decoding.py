"""What samples mean: cost, feasibility and energy, which lines of the file they break, and which
chains are broken."""
from __future__ import annotations

from collections import Counter
from dataclasses import dataclass, field, replace
from functools import cached_property
from typing import (Any, Dict, Iterable, Iterator, List, Mapping, Optional, Sequence, Tuple, Union,
                    overload)

from .bridges import sampleset_of
from .errors import PbisingError
from .models import Model
from .problems import Broken, Verdict
from .samples import Sample, written
from .sources import Source

MOST_JUDGED = 100
MOST_PARTS = 200_000
Told = Tuple[Optional[int], int]


class Judged:
    """An assignment, the cost and the energy that the program tells of its state, or None, and what
    the package counts itself once that is asked for."""

    def __init__(self, source: Source, bits: List[int], told: Optional[Told]) -> None:
        self.source, self.bits, self.told = source, bits, told

    @cached_property
    def verdict(self) -> Verdict:
        """The cost and the broken parts; a `PbisingError` where the program tells another cost."""
        verdict = self.source.problem.judge(self.bits)
        if self.told and verdict.cost != self.told[0]:
            raise PbisingError(f'the program tells the cost {self.told[0]} of a sample, '
                               f'and the package {verdict.cost}')
        return verdict

    @cached_property
    def broken(self) -> List[Broken]:
        """The broken parts, told."""
        return self.verdict.broken()


@dataclass(repr=False)
class Decoded:
    """One sample. The cost is None where it is infinite: where a hard clause or constraint is
    broken, or the weights of broken soft ones reach TOP.

    `verdict` and `broken` read the problem and judge the assignment when they are first asked for,
    once for all samples of one state. Of a repaired sample assignment and cost are those that the
    walk leads to, and state and energy its own.
    """

    state: List[int]
    assignment: List[int]
    cost: Optional[int]
    energy: int
    occurrences: int
    broken_chains: List[int]
    excess: Optional[int]
    judged: Judged = field(compare=False)
    sampled: Optional[List[int]] = None
    stuck: List[int] = field(default_factory=list)

    def __repr__(self) -> str:
        cost = 'infinite' if self.cost is None else self.cost
        return f'<Decoded: cost {cost}, energy {self.energy}, {len(self.assignment)} variables>'

    @property
    def feasible(self) -> bool:
        """Whether the cost is finite."""
        return self.cost is not None

    @property
    def repaired(self) -> bool:
        """Whether the sample was broken and is repaired; `sampled` is the assignment that it was,
        and `stuck` has the lines of what keeps one from that, 0 for TOP."""
        return self.sampled is not None

    @property
    def names(self) -> List[Any]:
        """What the variables are called, in their order."""
        return self.judged.source.names(len(self.assignment))

    @property
    def values(self) -> Dict[Any, Any]:
        """The bit of each variable, by its name or label; of a `Problem` the value of each."""
        return self.judged.source.values(self.assignment)

    @property
    def verdict(self) -> Verdict:
        """What the package counts of the assignment; a `PbisingError` where the program tells
        another cost."""
        return self.judged.verdict

    @property
    def broken(self) -> List[Broken]:
        """The clauses or constraints that are broken, with their lines in the file."""
        return self.judged.broken


class Decoding(Sequence[Decoded]):
    """All samples, in their order; printed, a table of them.

    `by` is 'program' where the program itself told cost and energy of each, and 'package' where it
    has no `evaluate`, and the package counted them. `model` is theirs, where it is known.
    """

    def __init__(self, samples: List[Decoded], chains: int, by: str,
                 model: Optional[Model] = None) -> None:
        self.samples, self.chains, self.by, self.model = samples, chains, by, model

    @overload
    def __getitem__(self, at: int) -> Decoded: ...

    @overload
    def __getitem__(self, at: slice) -> List[Decoded]: ...

    def __getitem__(self, at: Union[int, slice]) -> Union[Decoded, List[Decoded]]:
        return self.samples[at]

    def __len__(self) -> int:
        return len(self.samples)

    def __iter__(self) -> Iterator[Decoded]:
        return iter(self.samples)

    @property
    def best(self) -> Decoded:
        """The sample of least cost, a finite one first; of these that of least energy."""
        return min(self.samples, key=rank)

    @property
    def feasible(self) -> List[Decoded]:
        """The samples of finite cost, the least cost first."""
        return sorted((one for one in self.samples if one.feasible), key=rank)

    def costs(self) -> List[Tuple[Optional[int], int]]:
        """Each cost with how often it was sampled, the least first and the infinite one last."""
        counts: Counter[Optional[int]] = Counter()
        for one in self.samples:
            counts[one.cost] += one.occurrences
        return sorted(counts.items(), key=lambda pair: (pair[0] is None, pair[0] or 0))

    def broken_lines(self, most: Optional[int] = None) -> List[Tuple[Broken, int]]:
        """What is broken with how often, the most often first: in all samples, or in the first
        `most` of them."""
        counts: Counter[int] = Counter()
        first: Dict[int, Broken] = {}
        for one in self.samples[:most]:
            for part in one.broken if one.judged.source.has_parts else ():
                counts[part.line] += one.occurrences
                first.setdefault(part.line, part)
        return [(first[line], count) for line, count in counts.most_common()]

    def chain_break_fraction(self) -> float:
        """The part of all chains of all samples that is broken."""
        total = self.chains * sum(one.occurrences for one in self.samples)
        broken = sum(len(one.broken_chains) * one.occurrences for one in self.samples)
        return broken / total if total else 0.0

    def to_sampleset(self) -> Any:
        """The samples as a `dimod.SampleSet`: bits by the labels of the variables, costs as
        energies, and the vectors `is_feasible` and `model_energy`."""
        return sampleset_of(self)

    def __str__(self) -> str:
        return '\n'.join(self.table())

    def _repr_html_(self) -> str:
        from .pictures import decoding_html
        return decoding_html(self)

    def __repr__(self) -> str:
        return f'<Decoding: {len(self)} samples, told by the {self.by}>'

    def table(self, most: int = 10) -> Iterator[str]:
        """How many samples are feasible, each cost, and what is broken most often in as many of
        the first samples as are soon judged."""
        total = sum(one.occurrences for one in self.samples)
        feasible = sum(one.occurrences for one in self.samples if one.feasible)
        walked = sum(one.occurrences for one in self.samples if one.repaired)
        stuck = sum(one.occurrences for one in self.samples if one.stuck)
        told = f', repaired {walked}, beyond repair {stuck}' if walked or stuck else ''
        yield f'samples {total}, feasible {feasible}{told}'
        for cost, count in self.costs()[:most]:
            yield f'  cost {"infinite" if cost is None else cost}: {count}'
        yield from self._told_lines(most)
        if self.chains:
            yield f'chains broken {100 * self.chain_break_fraction():.1f} %'

    def _told_lines(self, most: int) -> Iterator[str]:
        """What is broken most often."""
        judged = self._soon_judged()
        total = sum(one.occurrences for one in self.samples[:judged])
        lines = self.broken_lines(judged)
        if lines and judged < len(self):
            yield f'of the first {judged} samples:'
        for part, count in lines[:most]:
            kind = 'hard' if part.weight is None else f'weight {part.weight}'
            yield f'broken in {100 * count / total:.0f} %: line {part.line}, {kind}'

    def _soon_judged(self) -> int:
        """How many of the first samples the table judges."""
        if not self.samples or not self.samples[0].judged.source.has_parts:
            return 0
        parts = len(self.samples[0].judged.source.problem.parts)
        return min(len(self), MOST_JUDGED, max(MOST_PARTS // max(parts, 1), 1))


def rank(one: Decoded) -> Tuple[bool, int, int]:
    """What the best sample has the least of."""
    return one.cost is None, one.cost or 0, one.energy


def decoded(model: Model, source: Source, samples: Iterable[Sample],
            told: Optional[Mapping[str, Told]] = None) -> List[Decoded]:
    """The samples, with the cost and the energy that are told of each state as it is written;
    where none are told, by the package's own arithmetic, which is exact.

    A state of an excess below 0 is judged at once, as only one with broken chains has that, or one
    that costs more than `bound=`, or with `penalty=local` one of a WBO.
    """
    known: Dict[str, Decoded] = {}
    found = []
    for state, occurrences in samples:
        text = written(state)
        if text not in known:
            known[text] = _decoded(model, source, state, told[text] if told else None)
        found.append(replace(known[text], occurrences=occurrences))
    return found


def _decoded(model: Model, source: Source, state: List[int], told: Optional[Told]) -> Decoded:
    """One sample, that occurs once."""
    judged = Judged(source, model.assignment(state), told)
    cost, energy = told or (judged.verdict.cost, model.energy(state))
    chains, above = model.broken_chains(state), excess(model, cost, energy)
    if above is not None and above < 0 and not chains:
        cost = judged.verdict.cost
    return Decoded(state, judged.bits, cost, energy, 1, chains, above, judged)


def excess(model: Model, cost: Optional[int], energy: int) -> Optional[int]:
    """How far a state lies above the least one of its assignment, in units of the weights."""
    if cost is None:
        return None
    return model.unit * energy - model.scale * cost - model.offset

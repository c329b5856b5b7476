"""Problems in a user's own words: variables, conditions and an objective.

    problem = pbising.Problem()
    tent, stove = problem.binary('tent'), problem.binary('stove')
    loaves = problem.integer('loaves', 0, 6)
    problem.add(4 * tent + 3 * stove + loaves <= 9, name='weight')
    problem.maximize(7 * tent + 4 * stove + 2 * loaves)
    best = problem.compile().solve()
    print(best.cost, best.values)
"""
from __future__ import annotations

from dataclasses import dataclass, field
from functools import cached_property
from typing import Any, Dict, Iterable, Iterator, List, Mapping, Optional, Sequence, Tuple, Union

from .compiling import CompiledModel, compile, size
from .errors import PbisingError
from .expressions import Choice, Condition, Expression, Label, Variable, quicksum, whole
from .lowering import Text, Wanted, over_bits
from .models import Size
from .problems import Constraint, SourceProblem, Verdict, truth_of
from .readers import read_problem
from .sources import Source

FORMATS = ('opb', 'wbo')


class OneHot:
    """One of some choices. `colour['red']` is 1 where red is chosen, and 0 else; two of them are
    compared by == and !=, and one with a choice too."""

    def __init__(self, name: Label, choices: Dict[Any, Expression]) -> None:
        self.name, self.choices = name, choices

    def __getitem__(self, choice: Any) -> Expression:
        if choice not in self.choices:
            raise PbisingError(f'{self.name}: {choice!r} is none of its choices '
                               f'{", ".join(map(str, self.choices))}')
        return self.choices[choice]

    def __iter__(self) -> Iterator[Any]:
        return iter(self.choices)

    def __len__(self) -> int:
        return len(self.choices)

    @property
    def number(self) -> Expression:
        """The number that is chosen, where all choices are whole numbers."""
        return quicksum(whole(choice, str(self.name)) * bit
                        for choice, bit in self.choices.items())

    def same(self, other: OneHot) -> Expression:
        """1 where both have one choice, and 0 else."""
        return quicksum(bit * other.choices[choice] for choice, bit in self.choices.items()
                        if choice in other.choices)

    def __eq__(self, other: object) -> Condition:  # type: ignore[override]
        return (self.same(other) if isinstance(other, OneHot) else self[other]) == 1

    def __ne__(self, other: object) -> Condition:  # type: ignore[override]
        return (self.same(other) if isinstance(other, OneHot) else self[other]) == 0

    __hash__ = object.__hash__

    def value(self, bits: List[int]) -> Any:
        """The choice in an assignment, None where it is not just one."""
        chosen = [choice for choice, bit in self._places() if bits[bit]]
        return chosen[0] if len(chosen) == 1 else None

    def place(self, value: Any, bits: List[int]) -> None:
        """Sets the bits of a choice."""
        chosen = self[value]
        for choice, bit in self._places():
            bits[bit] = int(self.choices[choice] is chosen)

    def _places(self) -> Iterator[Tuple[Any, int]]:
        """The bit of each choice."""
        for choice, bit in self.choices.items():
            for variable in bit.variables():
                yield choice, variable.first


Named = Union[Variable, OneHot]


@dataclass
class _Built(SourceProblem):
    """What the text of a built problem says, and the soft conditions of its objective."""

    soft: List[Constraint] = field(default_factory=list)

    def judge(self, bits: Sequence[Any]) -> Verdict:
        verdict = super().judge(bits)
        verdict.parts += [part for part in self.soft if not part.kept(verdict.truth)]
        return verdict


@dataclass
class BuiltSource(Source):
    """The text of a `Problem`, with its variables by name, what the conditions are called by
    their lines, and the soft ones that became terms of the objective, some with a bit that is 1
    where they fail."""

    variables: Dict[Label, Named] = field(default_factory=dict, repr=False)
    called: Dict[int, str] = field(default_factory=dict, repr=False)
    soft: List[Tuple[Constraint, Optional[int]]] = field(default_factory=list, repr=False)

    @cached_property
    def problem(self) -> SourceProblem:
        """What the text says."""
        read = read_problem(self.format, self.data, self.name)
        read.parts = [part._replace(text=self.called[part.line]) for part in read.parts
                      if isinstance(part, Constraint)]
        return _Built(**vars(read), soft=[constraint for constraint, _ in self.soft])

    def values(self, bits: Sequence[int]) -> Dict[Label, Any]:
        """The value of each variable."""
        return {name: variable.value(list(bits)) for name, variable in self.variables.items()}

    def bits(self, assignment: Union[Mapping[Label, Any], Sequence[Any]]) -> List[int]:
        """An assignment as a list of bits: of values by the names of the variables, or of bits."""
        if not isinstance(assignment, Mapping) or all(map(assignment.__contains__, self.names())):
            return super().bits(assignment)
        bits = [0] * len(self.names())
        for name, variable in self.variables.items():
            if name not in assignment:
                raise PbisingError(f'the assignment says nothing of {name!r}')
            variable.place(assignment[name], bits)
        truth = truth_of(bits)
        for constraint, bit in self.soft:
            if bit is not None:
                bits[bit] = int(not constraint.kept(truth))
        return bits


class Problem:
    """Variables, conditions on them, and what is to be as small as can be.

    Names are any labels, each of one variable. `add` takes a condition, as `x + 2 * n <= 7`; with a
    weight it may fail, and costs that then.
    """

    def __init__(self) -> None:
        self.variables: Dict[Label, Named] = {}
        self.conditions: List[Wanted] = []
        self.goal = Expression()
        self._all: List[Variable] = []
        self._labels: Dict[Label, None] = {}

    def __repr__(self) -> str:
        return f'Problem of {len(self.variables)} variables and {len(self.conditions)} conditions'

    def binary(self, name: Label) -> Expression:
        """A variable that is 0 or 1."""
        return self._variable(name, 0, (1,), [name])

    def spin(self, name: Label) -> Expression:
        """A variable that is -1 or 1."""
        return self._variable(name, -1, (2,), [name])

    def integer(self, name: Label, low: int, high: int, most: Optional[int] = None) -> Expression:
        """A whole number from `low` to `high`.

        Its bits count 1, 2, 4, .. and the last one what is left, so no other number can be had.
        With `most` none counts more, so that weights stay small, for more bits (Karimi and Ronagh,
        2019).
        """
        low, high = whole(low, f'{name}: the least value'), whole(high, f'{name}: the greatest')
        if low > high or most is not None and most < 1:
            raise PbisingError(f'{name}: no whole number from {low} to {high} in steps of at most '
                               f'{most}' if low <= high else f'{name}: {low} is above {high}')
        steps = _steps(high - low, most or high - low)
        return self._variable(name, low, steps, [f'{name}[{at}]' for at in range(len(steps))])

    def one_hot(self, name: Label, choices: Iterable[Any]) -> OneHot:
        """One of some choices: a bit for each, of which just one is 1."""
        listed = list(choices)
        if not listed or len(set(listed)) != len(listed):
            raise PbisingError(f'{name}: there is no choice, or two are the same')
        self._check(name)
        bits = {choice: self._bits(Choice(name, choice, len(self._all), len(self._labels)),
                                   [f'{name}[{choice}]']) for choice in listed}
        found = self.variables[name] = OneHot(name, bits)
        self.add(quicksum(bits.values()) == 1, name=f'one {name}')
        return found

    def add(self, condition: Union[Condition, bool], weight: Optional[int] = None,
            name: Optional[str] = None) -> None:
        """Adds a condition. With a weight it may fail, and costs that then."""
        if condition is True:
            return
        if not isinstance(condition, Condition):
            raise PbisingError(f'{condition!r} is no condition, as x + y <= 1'
                               + ' (it never holds)' * (condition is False))
        called = str(condition) if name is None else f'{name}: {condition}'
        if weight is not None:
            weight = whole(weight, f'the weight of `{called}`')
            if weight < 0:
                raise PbisingError(f'the weight of `{called}` is {weight}, below 0')
        self._own(condition.difference)
        wanted = Wanted(condition, called, weight)
        constraint = wanted.constraint()
        if constraint.terms:
            self.conditions.append(wanted)
        elif not constraint.kept(bool):
            raise PbisingError(f'`{called}` never holds')

    def minimize(self, goal: Union[Expression, int]) -> None:
        """Adds to what is to be small: the cost is the sum of all these and of broken weights."""
        self.goal = self.goal + goal
        self._own(self.goal)

    def maximize(self, goal: Union[Expression, int]) -> None:
        """Adds to what is to be large: it counts below 0 in the cost."""
        self.minimize(0 - goal)

    def source(self, format: Optional[str] = None) -> BuiltSource:
        """The problem as a text: a WBO file where conditions may fail and nothing is to be small,
        and else an OPB file, in whose objective soft conditions are terms."""
        soft = any(wanted.weight is not None for wanted in self.conditions)
        chosen = format or ('wbo' if soft and not self.goal.terms else 'opb')
        if chosen not in FORMATS or chosen == 'wbo' and self.goal.terms:
            raise PbisingError(f'a problem is written as opb or wbo, not as {chosen}' if
                               chosen not in FORMATS else 'a WBO file has no objective')
        if not self._labels:
            raise PbisingError('the problem has no variable')
        text = Text(self.conditions, list(self._labels))
        if chosen == 'wbo':
            text.write_wbo()
        else:
            text.write_opb(over_bits(self.goal))
        lines = ''.join(f'{line}\n' for line in text.lines)
        return BuiltSource(lines.encode(), chosen, 'the problem', text.labels, dict(self.variables),
                           text.called, text.soft)

    def compile(self, target: str = 'qubo', **keys: Any) -> CompiledModel:
        """The model, whose decoded `values` are those of the variables. Keys are as for
        `pbising.compile`."""
        return compile(self.source(), target=target, **keys)

    def size(self, target: str = 'qubo', **keys: Any) -> Size:
        """How large the model is."""
        return size(self.source(), target=target, **keys)

    def _variable(self, name: Label, low: int, steps: Tuple[int, ...],
                  labels: Sequence[Label]) -> Expression:
        """A variable of its own."""
        self._check(name)
        variable = Variable(name, len(self._all), len(self._labels), low, steps)
        found = self._bits(variable, labels)
        self.variables[name] = variable
        return found

    def _bits(self, variable: Variable, labels: Sequence[Label]) -> Expression:
        """Gives a variable its bits."""
        for label in labels:
            self._check(label)
        self._labels.update(dict.fromkeys(labels))
        self._all.append(variable)
        return Expression({(variable,): 1})

    def _check(self, name: Label) -> None:
        """Refuses a name that is taken."""
        if name in self.variables or name in self._labels:
            raise PbisingError(f'{name} is the name of a variable or of a bit already')

    def _own(self, expression: Expression) -> None:
        """Refuses variables of another problem."""
        for variable in expression.variables():
            if variable.number >= len(self._all) or self._all[variable.number] is not variable:
                raise PbisingError(f'{variable.name} in `{expression}` is of another problem')


def _steps(span: int, most: int) -> Tuple[int, ...]:
    """What bits count, so that their sums are all numbers up to a span, and none above it."""
    steps: List[int] = []
    step = 1
    while span > 0:
        steps.append(min(step, span, most))
        span -= steps[-1]
        step *= 2
    return tuple(steps)

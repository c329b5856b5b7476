"""Expressions over variables, and conditions on them: what a `Problem` is built of.

An expression is a sum of products of variables with whole coefficients. `+ - *`, powers and sums
give expressions; `<= >= == < >` give conditions, which `Problem.add` takes.
"""
from __future__ import annotations

from operator import attrgetter
from typing import Any, Dict, Hashable, Iterable, List, Mapping, Optional, Tuple, Union

from .errors import PbisingError

Label = Hashable
MOST_SHOWN = 80


class Variable:
    """A whole number: `low`, and a step more for each of its bits that is 1.

    Variables and bits of a problem are counted from 0; the bits of a variable follow each other
    from `first` on.
    """

    __slots__ = ('name', 'number', 'first', 'low', 'steps')

    def __init__(self, name: Label, number: int, first: int, low: int,
                 steps: Tuple[int, ...]) -> None:
        self.name, self.number, self.first = name, number, first
        self.low, self.steps = low, steps

    @property
    def high(self) -> int:
        """The greatest value."""
        return self.low + sum(self.steps)

    def polynomial(self) -> Dict[Tuple[int, ...], int]:
        """The value as a polynomial over bits."""
        terms: Dict[Tuple[int, ...], int] = {(): self.low} if self.low else {}
        terms.update(((self.first + at,), step) for at, step in enumerate(self.steps))
        return terms

    def value(self, bits: List[int]) -> int:
        """The value in an assignment of all bits."""
        own = bits[self.first:self.first + len(self.steps)]
        return self.low + sum(step for step, bit in zip(self.steps, own) if bit)

    def place(self, value: Any, bits: List[int]) -> None:
        """Sets the bits that make a value; the greatest steps that fit are taken first."""
        if value not in range(self.low, self.high + 1) or self.steps == (2,) and value == 0:
            raise PbisingError(f'{self.name}: {value!r} is no value of {self.told()}')
        rest = int(value) - self.low
        for step, at in sorted(((step, at) for at, step in enumerate(self.steps)), reverse=True):
            bits[self.first + at] = int(step <= rest)
            rest -= step * bits[self.first + at]

    def told(self) -> str:
        """What values it has."""
        if self.steps == (2,):
            return 'a spin, -1 or 1'
        return f'a number from {self.low} to {self.high}'

    def read(self, values: Mapping[Any, Any]) -> int:
        """Its value among those of all variables by name."""
        return int(values[self.name])


class Choice(Variable):
    """The bit of a choice of a variable that has one of some choices."""

    __slots__ = ('of', 'choice')

    def __init__(self, of: Label, choice: Any, number: int, first: int) -> None:
        super().__init__(f'{of}[{choice}]', number, first, 0, (1,))
        self.of, self.choice = of, choice

    def read(self, values: Mapping[Any, Any]) -> int:
        return int(values[self.of] == self.choice)


Product = Tuple[Variable, ...]
Operand = Union['Expression', int, Any]


class Expression:
    """A sum of products of variables. `value` tells what it is where the variables have values, as
    `expression.value(decoded.values)`."""

    __slots__ = ('terms',)
    __array_ufunc__ = None

    def __init__(self, terms: Optional[Dict[Product, int]] = None) -> None:
        self.terms = {} if terms is None else terms

    def __add__(self, other: Operand) -> Expression:
        return quicksum((self, _operand(other, '+', self)))

    __radd__ = __add__

    def __neg__(self) -> Expression:
        return Expression({product: -c for product, c in self.terms.items()})

    def __pos__(self) -> Expression:
        return self

    def __sub__(self, other: Operand) -> Expression:
        return quicksum((self, -_operand(other, '-', self)))

    def __rsub__(self, other: Operand) -> Expression:
        return quicksum((_operand(other, '-', self), -self))

    def __mul__(self, other: Operand) -> Expression:
        sums: Dict[Product, int] = {}
        for right, d in _operand(other, '*', self).terms.items():
            for left, c in self.terms.items():
                product = _product(left + right)
                sums[product] = sums.get(product, 0) + c * d
        return _without_zeros(sums)

    __rmul__ = __mul__

    def __pow__(self, power: int) -> Expression:
        if not isinstance(power, int) or power < 0:
            raise PbisingError(f'({self}) ** {power}: a power is a whole number of at least 0')
        result = Expression({(): 1})
        for _ in range(power):
            result = result * self
        return result

    def __truediv__(self, other: Any) -> Expression:
        raise PbisingError(f'({self}) / {other}: all numbers are whole: multiply the whole '
                           'condition or objective by one number (scaling)')

    def __le__(self, other: Operand) -> Condition:
        return Condition(self, '<=', _operand(other, '<=', self))

    def __ge__(self, other: Operand) -> Condition:
        return Condition(self, '>=', _operand(other, '>=', self))

    def __lt__(self, other: Operand) -> Condition:
        return self + 1 <= other

    def __gt__(self, other: Operand) -> Condition:
        return self - 1 >= other

    def __eq__(self, other: object) -> Condition:  # type: ignore[override]
        return Condition(self, '=', _operand(other, '==', self))

    def __ne__(self, other: object) -> Condition:  # type: ignore[override]
        raise PbisingError(f'{self} != {other}: two choices of `one_hot` can differ, and of bits '
                           'x + y == 1 says it; of other sums it is no condition')

    __hash__ = object.__hash__

    def value(self, values: Mapping[Any, Any]) -> int:
        """What it is where the variables have these values, by their names."""
        total = 0
        for product, coefficient in self.terms.items():
            for variable in product:
                coefficient *= variable.read(values)
            total += coefficient
        return total

    def variables(self) -> Iterable[Variable]:
        """Each variable, once."""
        return dict.fromkeys(variable for product in self.terms for variable in product)

    def __str__(self) -> str:
        words: List[str] = []
        for product, coefficient in self.terms.items():
            sign = '-' if coefficient < 0 else '+'
            words += [sign] if words else ['-'] * (coefficient < 0)
            factors = [str(variable.name) for variable in product]
            if abs(coefficient) != 1 or not factors:
                factors.insert(0, str(abs(coefficient)))
            words.append('*'.join(factors))
            if sum(map(len, words)) > MOST_SHOWN:
                return ' '.join([*words, '..'])
        return ' '.join(words).replace('- ', '-', words[:1] == ['-']) or '0'

    __repr__ = __str__


class Condition:
    """A sum that is at most, at least, or just another one."""

    def __init__(self, left: Expression, operator: str, right: Expression) -> None:
        self.left, self.operator, self.right = left, operator, right

    @property
    def difference(self) -> Expression:
        """What is compared with 0."""
        return self.left - self.right

    def holds(self, values: Mapping[Any, Any]) -> bool:
        """Whether it holds where the variables have these values, by their names."""
        value = self.difference.value(values)
        return value == 0 or self.operator != '=' and (value > 0) == (self.operator == '>=')

    def __bool__(self) -> bool:
        raise PbisingError(f'`{self}` is a condition on unknowns, so it is neither true nor false: '
                           '`Problem.add` takes it; a <= b <= c is written as two')

    def __str__(self) -> str:
        shown = '==' if self.operator == '=' else self.operator
        return f'{self.left} {shown} {self.right}'

    __repr__ = __str__


def quicksum(parts: Iterable[Operand]) -> Expression:
    """The sum of many expressions and numbers, in one go."""
    sums: Dict[Product, int] = {}
    for part in parts:
        for product, coefficient in _operand(part, '+', None).terms.items():
            sums[product] = sums.get(product, 0) + coefficient
    return _without_zeros(sums)


def whole(value: Any, what: str) -> int:
    """A number that is whole."""
    try:
        number = int(value)
        if number == value:
            return number
    except (TypeError, ValueError, OverflowError):
        pass
    raise PbisingError(f'{what}: {value!r} is no whole number: multiply the whole condition or '
                       'objective by one number (scaling), and round')


def _operand(value: Operand, sign: str, beside: Optional[Expression]) -> Expression:
    """An expression, or a number as one."""
    if isinstance(value, Expression):
        return value
    if not hasattr(value, '__int__') or isinstance(value, str):
        raise PbisingError(f'{value!r} stands beside `{beside}` and {sign}, where an expression or '
                           'a whole number is wanted')
    number = whole(value, f'{value!r} {sign} ({beside})')
    return Expression({(): number} if number else {})


def _product(variables: Product) -> Product:
    """A product in the order of the variables; a bit counts once, and a spin by its parity."""
    if len(variables) < 2:
        return variables
    found: List[Variable] = []
    for variable in sorted(variables, key=attrgetter('number')):
        again = found[-1:] == [variable]
        if again and variable.steps == (2,) and variable.low == -1:
            found.pop()
        elif not (again and variable.steps == (1,) and variable.low == 0):
            found.append(variable)
    return tuple(found)


def _without_zeros(sums: Dict[Product, int]) -> Expression:
    return Expression({product: c for product, c in sums.items() if c})

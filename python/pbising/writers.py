"""Writers of problems from Python dicts.

Each gives a `Source`, which `compile` takes: the text, its format, and the labels of its variables,
by which decoded samples name them. All weights are whole numbers, or doubles that are whole;
`scaled` rounds others.

A label is whatever a dict has as a key, but None. Variables are numbered as their labels appear;
labels that are 0, 1, 2 .. in any order are the numbers themselves.
"""
from __future__ import annotations

import re
from itertools import combinations
from typing import Any, Dict, Hashable, Iterable, List, Mapping, Optional, Sequence, Tuple

from .errors import PbisingError
from .sources import Source

Label = Hashable
Labels = Tuple[Label, ...]
Numbers = Dict[Label, int]
Terms = Mapping[Any, Any]
NAME = re.compile(r'[A-Za-z_][A-Za-z0-9_]*')
OPERATORS = {'>=': '>=', '<=': '<=', '=': '=', '==': '='}


def from_qubo(weights: Any, offset: Any = 0) -> Source:
    """A QUBO: a dict of weights by pairs of labels, or a square matrix whose rows and columns are
    the variables 0, 1, 2 ..

    (a, a), or (a,), is the weight of a alone. What a dict of a set of two labels has counts too. A
    QUBO file has no row for an offset, so with one the problem is written as a polynomial.
    """
    pairs = _pairs(_items(_of_matrix(weights), 'pairs of labels'))
    _check_labels(pairs)
    if not offset:
        return _entries('qubo', pairs)
    terms: Dict[Labels, int] = {(): _whole(offset, 'the offset')}
    for (u, v), weight in pairs:
        key = (u,) if u == v else (u, v)
        terms[key] = terms.get(key, 0) + _whole(weight, (u, v))
    return from_polynomial(terms)


def from_ising(fields: Any, couplings: Terms, offset: Any = 0) -> Source:
    """An Ising model: fields by labels, or a list of them for the spins 0, 1, 2 .., and couplings
    by pairs of labels.

    An Ising file has no row for an offset, so with one it is written as a polynomial.
    """
    alone = [((label, label), field) for label, field in _items(_of_list(fields), 'labels')]
    pairs = _pairs(_items(couplings, 'pairs of labels'))
    _check_labels(alone + pairs)
    same = next((pair for pair, _ in pairs if pair[0] == pair[1]), None)
    if same is not None:
        raise PbisingError(f'{same}: a spin is not coupled with itself')
    if not offset:
        return _entries('ising', alone + pairs)
    terms: Dict[Labels, int] = {(): _whole(offset, 'the offset')}
    for key, weight in [*(((u,), field) for (u, _), field in alone), *pairs]:
        terms[key] = terms.get(key, 0) + _whole(weight, key)
    return from_polynomial(terms, spins=True)


def from_polynomial(terms: Terms, spins: bool = False) -> Source:
    """A polynomial over bits, or over spins: a dict of coefficients by products of labels, or a
    polynomial of dimod, which knows what it is over.

    A product is a tuple or a set of labels, and an empty one the constant; any other key is one
    label. Over bits a str label with ~ before it is the complement. A product of d spins becomes
    2^d products of bits.
    """
    spins = _is_over_spins(terms, spins)
    products = [(_labels(key), _whole(weight, key)) for key, weight in _items(terms, 'products')]
    sums: Dict[Labels, int] = {}
    for labels, weight in products:
        for part, factor in _over_bits(labels) if spins else [(_once(labels), 1)]:
            sums[part] = sums.get(part, 0) + factor * weight
    of = _plain if spins else _variable
    numbers = _numbered(of(label) for labels, _ in products for label in labels)
    names = _names(list(numbers))
    lines = [f'0 {name}' for name in names]
    for part, weight in sums.items():
        literals = [_mark(label) + names[numbers[_variable(label)]] for label in part]
        if weight and len(set(map(_variable, part))) == len(part):
            lines.append(' '.join([str(weight), *literals]))
    return _source('poly', lines, numbers)


def from_constraints(constraints: Iterable[Sequence[Any]], objective: Optional[Terms] = None,
                     top: Optional[int] = None) -> Source:
    """A 0-1 program: an OPB file, or a WBO file where some constraint has a weight.

    A constraint is (terms, operator, bound), or (terms, operator, bound, weight) for one that may
    fail and costs its weight then. Terms are a dict of coefficients by labels, or by tuples or sets
    of labels whose product counts; a str label with ~ before it is the complement. With a `top`
    constraints of so much weight may not fail together.
    """
    rows = [_checked(constraint) for constraint in constraints]
    minimum = _items(objective or {}, 'products')
    soft = top is not None or any(row[3] is not None for row in rows)
    if soft and minimum:
        raise PbisingError('soft constraints leave no place for an objective: write a term c of x '
                           "as the soft constraint ({'x': 1}, '=', 0, c)")
    sums = [minimum, *(row[0] for row in rows)]
    numbers = _numbered(_variable(label) for terms in sums for key, _ in terms
                        for label in _labels(key))
    lines = []
    if soft:
        lines.append('soft: ;' if top is None else f'soft: {_whole(top, "top")} ;')
    elif minimum:
        lines.append(f'min: {_objective(minimum, numbers)} ;')
    for terms, operator, bound, weight in rows:
        before = '' if weight is None else f'[{_whole(weight, "a weight")}] '
        lines.append(f'{before}{_sum(terms, numbers)} {operator} {_whole(bound, "a bound")} ;')
    return _source('wbo' if soft else 'opb', lines, numbers)


Items = List[Tuple[Any, Any]]


def _items(terms: Any, by: str) -> Items:
    """The keys and values of a dict."""
    if not isinstance(terms, Mapping):
        raise PbisingError(f'a {type(terms).__name__} is no dict of numbers by {by}')
    return list(terms.items())


def _of_matrix(weights: Any) -> Any:
    """The weights of a square matrix as a dict; anything else as it is."""
    rows = weights.tolist() if hasattr(weights, 'tolist') else weights
    if not isinstance(rows, (list, tuple)):
        return weights
    if not all(isinstance(row, (list, tuple)) and len(row) == len(rows) for row in rows):
        raise PbisingError('weights are a dict by pairs of labels, or a square matrix')
    sums: Dict[Tuple[int, int], Any] = {(i, i): row[i] for i, row in enumerate(rows)}
    for i, j in combinations(range(len(rows)), 2):
        if rows[i][j] or rows[j][i]:
            sums[i, j] = rows[i][j] + rows[j][i]
    return sums


def _of_list(fields: Any) -> Any:
    """Fields in a list as a dict; anything else as it is."""
    values = fields.tolist() if hasattr(fields, 'tolist') else fields
    return dict(enumerate(values)) if isinstance(values, (list, tuple)) else fields


def _pairs(items: Items) -> Items:
    """The same with a pair of labels for each key."""
    return [(_pair(key), weight) for key, weight in items]


def _check_labels(items: Items) -> None:
    """Refuses what is no label of a variable."""
    for label in dict.fromkeys(label for pair, _ in items for label in pair):
        _plain(label)


def _pair(key: Any) -> Tuple[Label, Label]:
    """The two labels of a key, which are the same where it names one."""
    if isinstance(key, tuple) and len(key) == 2:
        return key[0], key[1]
    labels = _labels(key) if isinstance(key, (tuple, frozenset)) else ()
    if len(labels) not in (1, 2):
        raise PbisingError(f'{key!r} is no pair of labels, as ({key!r}, {key!r}) is: '
                           '`from_polynomial` takes products of any length')
    return labels[0], labels[-1]


def _labels(product: Any) -> Labels:
    """The labels of a product; those of a set in the order of their texts."""
    if isinstance(product, (set, frozenset)):
        labels: Labels = tuple(sorted(product, key=repr))
    else:
        labels = product if isinstance(product, tuple) else (product,)
    if None in labels:
        raise PbisingError(f'{product!r}: None is no label')
    return labels


def _mark(label: Label) -> str:
    """The ~ that stands before a complement."""
    return '~' if isinstance(label, str) and label.startswith('~') else ''


def _variable(label: Label) -> Label:
    """The label without it."""
    return label[1:] if isinstance(label, str) and label.startswith('~') else label


def _plain(label: Label) -> Label:
    """A label where no complement can stand."""
    if label is None:
        raise PbisingError('None is no label')
    if _mark(label):
        raise PbisingError(f'{label!r}: ~ marks a complement, which has no place here')
    return label


def _numbered(labels: Iterable[Any]) -> Numbers:
    """A number for each label: itself, where they are all whole numbers from 0 on."""
    different = dict.fromkeys(labels)
    own = set(different) == set(range(len(different)))
    ordered = sorted(different, key=int) if own else list(different)
    return {label: at for at, label in enumerate(ordered)}


def _entries(kind: str, entries: Items) -> Source:
    """A QUBO file or an Ising file."""
    numbers = _numbered(label for pair, _ in entries for label in pair)
    rows: Dict[bool, List[str]] = {True: [], False: []}
    for (u, v), weight in entries:
        i, j = numbers[u], numbers[v]
        rows[i == j].append(f'{i} {j} {_whole(weight, (u, v))}')
    topology = ' 0' if kind == 'qubo' else ''
    head = f'p {kind}{topology} {len(numbers)} {len(rows[True])} {len(rows[False])}'
    return _source(kind, [head, *rows[True], *rows[False]], numbers)


def _is_over_spins(terms: Any, spins: bool) -> bool:
    """Whether a polynomial is over spins; one of dimod says so itself."""
    vartype = getattr(terms, 'vartype', None)
    said = getattr(vartype, 'name', vartype)
    if said == 'BINARY' and spins:
        raise PbisingError('the polynomial is over bits, and not over spins')
    return spins or said == 'SPIN'


def _once(labels: Iterable[Label]) -> Labels:
    """The labels of a product of bits, each once."""
    return tuple(dict.fromkeys(labels))


def _over_bits(spins: Sequence[Label]) -> Iterable[Tuple[Labels, int]]:
    """The products of bits that a product of spins is: of each spin 2x - 1, and 1 of its square."""
    odd = [label for label in _once(spins) if list(spins).count(label) % 2]
    if len(odd) > 20:
        raise PbisingError(f'a product of {len(odd)} spins has 2^{len(odd)} products of bits')
    for count in range(len(odd) + 1):
        for part in combinations(odd, count):
            yield part, (-1) ** (len(odd) - count) * 2 ** count


def _names(labels: Sequence[Label]) -> List[str]:
    """Names as a polynomial file has them: the labels themselves where all of them can stand."""
    if all(isinstance(label, str) and NAME.fullmatch(label) for label in labels):
        return list(map(str, labels))
    return [f'v{number}' for number in range(len(labels))]


def _checked(constraint: Any) -> Tuple[Items, str, Any, Any]:
    """A constraint, with None where it has no weight."""
    if (not isinstance(constraint, (list, tuple)) or len(constraint) not in (3, 4)
            or constraint[1] not in OPERATORS):
        raise PbisingError(f'{constraint!r} is no (terms, operator, bound), with an operator of '
                           '>=, <= and =')
    terms, operator, bound, weight = (*constraint, None)[:4]
    return _items(terms, 'products'), OPERATORS[operator], bound, weight


def _objective(terms: Items, numbers: Numbers) -> str:
    """A sum with a constant c, which is c of a variable and c of its complement."""
    constant = sum(_whole(weight, 'the constant') for key, weight in terms if not _labels(key))
    words = _sum([term for term in terms if _labels(term[0])], numbers)
    if not constant:
        return words
    if not numbers:
        raise PbisingError('an objective of a constant alone has no variable')
    return f'{words} {constant} x1 {constant} ~x1'.strip()


def _sum(terms: Items, numbers: Numbers) -> str:
    """A sum as OPB writes it."""
    words = []
    for product, coefficient in terms:
        labels = _labels(product)
        if not labels:
            raise PbisingError('a constant has no place in a sum: take it off the bound')
        words.append(str(_whole(coefficient, product)))
        words += [f'{_mark(label)}x{numbers[_variable(label)] + 1}' for label in labels]
    return ' '.join(words)


def _whole(weight: Any, what: Any) -> int:
    """A weight that is a whole number."""
    try:
        value = int(weight)
        if value == weight:
            return value
    except (TypeError, ValueError, OverflowError):
        pass
    raise PbisingError(f'{what}: {weight} is no whole number: multiply all weights by one number, '
                       'as `scaled` does')


def _source(layout: str, lines: Sequence[str], numbers: Numbers) -> Source:
    return Source(''.join(f'{line}\n' for line in lines).encode(), layout, f'a {layout} text',
                  list(numbers))

"""The words that the program takes besides files: formats, targets and keys; and what is wanted in
place of one that it does not take."""
from __future__ import annotations

import difflib
import re
from typing import Iterable, Iterator, Mapping, Optional

from .texts import one_of

FORMATS = ('wcnf', 'opb', 'wbo', 'poly', 'qubo', 'ising')
TARGETS = ('qubo', 'ising', 'chimera', 'graph')
CHOICES = {'normal': ('literal', 'multilinear'), 'high': ('monomial', 'rosenberg'),
           'unit': ('one', 'reduce'), 'slack': ('bits', 'pairs', 'clauses'),
           'penalty': ('global', 'local'), 'embed': ('clique',), 'chain': ('choi', 'cut')}
SIZES = ('rows', 'cols', 'shore')
FILES = ('graph', 'map', 'dead', 'order')
ON_QUBITS = {'chimera': (*SIZES, 'embed', 'map', 'dead', 'chain'),
             'graph': ('graph', 'map', 'chain')}
KEYS = ('normal', 'high', 'unit', 'bound', 'slack', 'penalty', 'order', *ON_QUBITS['chimera'],
        'graph')
MEANINGS = {
    'normal': 'products of literals, or multiplied out',
    'high': 'new nodes for each long term, or for pairs that terms share',
    'unit': 'what an energy counts: 1, or the common divisor of all weights',
    'bound': 'only assignments that cost at most N are feasible',
    'slack': 'slack bits, or none for "at most one", or also none for "one of"',
    'penalty': 'one of all hard parts, or a small one for each',
    'order': 'the nodes as they are eliminated; auto finds an order',
    'rows': 'rows of cells of the target chimera',
    'cols': 'columns of cells',
    'shore': 'qubits on each side of a cell',
    'embed': 'chains of which each two touch',
    'map': 'chains of your own',
    'dead': 'qubits and couplers that do not work',
    'chain': 'ties that no broken chain pays for, or that ground states keep',
    'graph': 'the qubits and couplers of the target graph'}
LIKE = {'pegasus': 'graph', 'zephyr': 'graph', 'covers': 'clauses', 'each': 'local'}
MOST_QUBITS = 2 ** 20
BOUND = re.compile(r'-?[0-9]+')


def near(word: str, words: Iterable[str], least: float = 0.6) -> str:
    """A question after the word that is most like one, or nothing where none is like it."""
    words = list(words)
    found = ([LIKE[word.lower()]] if LIKE.get(word.lower()) in words
             else difflib.get_close_matches(word.lower(), words, 1, least))
    return f'; did you mean {found[0]!r}?' if found else ''


def stands(word: str, wanted: str, words: Iterable[str] = ()) -> str:
    """A word that cannot stand, what is wanted there, and a word like it."""
    return f'{word!r} stands where {wanted} is wanted{near(word, words)}'


def choice(word: str, what: str, words: Iterable[str]) -> Optional[str]:
    """What is wrong with a word that is to be one of some, or None."""
    words = list(words)
    return None if word in words else stands(word, f'{what}, {one_of(words)},', words)


def fault(command: str, layout: str, target: str, keys: Mapping[str, str]) -> Optional[str]:
    """What is wrong with the words of a command, or None where nothing is seen."""
    return (swapped(layout, target) or choice(layout, 'a format', FORMATS)
            or choice(target, 'a target', TARGETS)
            or next(_of_keys(command, target, keys), None)
            or {'chimera': _of_chimera, 'graph': _of_graph}.get(target, _of_nodes)(keys))


def swapped(layout: str, target: str) -> Optional[str]:
    """Whether a format and a target have changed places, or None."""
    if layout in TARGETS and layout not in FORMATS or target in FORMATS and target not in TARGETS:
        return (f'the target {target!r} stands where {one_of(TARGETS)} is wanted; '
                f'did you mean --format {target}' + (f' --target {layout}?' if layout else '?'))
    return None


def told_keys(order: bool) -> Iterator[str]:
    """The lines of a help that tell the keys."""
    for key, meaning in MEANINGS.items():
        if key in CHOICES:
            first, *others = CHOICES[key]
            values = ' | '.join([f'[{first}]' if others else first, *others])
        else:
            values = 'N' if key == 'bound' or key in SIZES else 'FILE'
        if key != 'order' or order:
            yield f'  --{key} {values}'.ljust(36) + meaning


def _of_keys(command: str, target: str, keys: Mapping[str, str]) -> Iterator[str]:
    """What is wrong with each key."""
    for key, value in keys.items():
        if key not in KEYS:
            yield stands(key, f'a key, {one_of(KEYS)},', KEYS)
        elif key == 'order' and command != 'solve':
            yield f'order= is a key of `solve`, and not of `{command}`'
        elif not _takes(target, key):
            yield f'{key}= is a key of the target {_takers(key)}, and not of {target}'
        elif key in CHOICES and value not in CHOICES[key]:
            yield stands(value, f'{one_of(CHOICES[key])} for {key}=', CHOICES[key])
        elif key == 'bound' and not (BOUND.fullmatch(value) and abs(int(value)) < 2 ** 64):
            yield stands(value, 'a whole number below 2^64 in size for bound=')
        elif key in SIZES and not (value.isdecimal() and value.isascii() and int(value)):
            yield stands(value, f'a whole number of at least 1 for {key}=')


def _takers(key: str) -> str:
    """The targets that a key is of alone."""
    return one_of([target for target, keys in ON_QUBITS.items() if key in keys] or [''])


def _takes(target: str, key: str) -> bool:
    """Whether a target takes a key."""
    return not _takers(key) or key in ON_QUBITS.get(target, ())


def _of_nodes(_: Mapping[str, str]) -> Optional[str]:
    """Nothing is missing for a model on nodes."""
    return None


def _of_chimera(keys: Mapping[str, str]) -> Optional[str]:
    """What is missing for a Chimera graph, or too much."""
    missing = [f'{key}=' for key in SIZES if key not in keys]
    if missing:
        return f'the target chimera needs rows=, cols= and shore=: {missing[0]} is missing'
    if ('embed' in keys) == ('map' in keys):
        seen = 'both are given' if 'map' in keys else 'none is given'
        return f'the target chimera needs one of embed=clique and map=FILE: {seen}'
    qubits = 2
    for key in SIZES:
        qubits *= int(keys[key])
    if qubits > MOST_QUBITS:
        return f'a graph of {qubits} qubits is too large: at most {MOST_QUBITS}'
    return None


def _of_graph(keys: Mapping[str, str]) -> Optional[str]:
    """What is missing for a graph that is a list."""
    missing = [f'{key}=' for key in ('graph', 'map') if key not in keys]
    return (f'the target graph needs graph=FILE and map=FILE: {missing[0]} is missing' if missing
            else None)

"""Samples: what solvers give back, as Python objects or as text, and the states that they are.

A sample names bits or spins of nodes: a dict, a list or an array of all nodes or of those that have
weights, or a row of a dimod sample set. 1 and + are the bit 1, the spin +1; 0, -1 and - the bit 0.
"""
from __future__ import annotations

import re
from collections.abc import Iterable, Mapping, Sequence
from typing import Any, Callable, Dict, Iterator, List, NamedTuple, Optional, Tuple, Union

from .errors import PbisingError
from .models import Model
from .sources import bit_of, bits_of

PAIR = re.compile(r"""(?<![\w.])["']?(\d+)["']?\s*:\s*(?:[\w.]+\()?([^\s,)]+)""")
VALUES = {'0': 0, '1': 1, '+1': 1, '-1': 0, '+': 1, '-': 0,
          '0.': 0, '1.': 1, '-1.': 0, '0.0': 0, '1.0': 1, '-1.0': 0,
          'True': 1, 'False': 0, 'true': 1, 'false': 0}
LITERAL = re.compile(r'([-~]?)x?(\d+)')
NAMED = re.compile(r'([^\s=,;]+)\s*=\s*([^\s=,;]+)[\s,;]*')
COMMAS = str.maketrans(',;', '  ')
Known = Union[Dict[int, int], List[int]]


class Sample(NamedTuple):
    """A state, and how often it was sampled."""

    state: List[int]
    occurrences: int = 1


class Naming(NamedTuple):
    """What the nodes of a model are called, how many are variables, and what gives the state of an
    assignment of these."""

    labels: Dict[Any, int]
    variables: int
    extend: Callable[[List[int]], List[int]]


def states_of(model: Model, samples: Any, naming: Optional[Naming] = None) -> List[Sample]:
    """The states that samples of a model are."""
    used = model.used()
    found = []
    for number, (values, occurrences) in enumerate(_samples(model, samples), 1):
        try:
            found.append(Sample(_state(model, used, values, naming), occurrences))
        except PbisingError as fault:
            raise PbisingError(f'sample {number}: {fault}') from None
    if not found:
        raise PbisingError('no sample is given')
    return found


def _samples(model: Model, samples: Any) -> Iterator[Tuple[Any, int]]:
    """Each sample as a dict or a list, and how often it occurs."""
    if hasattr(samples, 'record') and hasattr(samples, 'variables'):
        labels = list(samples.variables)
        record = samples.record
        for row, count in zip(_plain(record.sample), _plain(record.num_occurrences)):
            yield dict(zip(labels, row)), count
        return
    samples = _plain(samples)
    if isinstance(samples, str):
        for known in text_samples(model, samples):
            yield known, 1
    elif isinstance(samples, Mapping) or isinstance(samples, Iterable) and _is_one(samples):
        yield samples, 1
    elif isinstance(samples, Iterable):
        for values in samples:
            yield _plain(values), 1
    else:
        raise PbisingError(f'{samples!r} is no sample')


def _plain(values: Any) -> Any:
    """An array as a list, an iterator too."""
    if hasattr(values, 'tolist'):
        return values.tolist()
    if isinstance(values, (str, Mapping, Sequence)) or not isinstance(values, Iterable):
        return values
    return list(values)


def _is_one(samples: Any) -> bool:
    """Whether a list is one sample, and not a list of samples."""
    first = next(iter(samples), None)
    if isinstance(first, str):
        return len(first) == 1
    return first is not None and not isinstance(first, Iterable)


def _state(model: Model, used: List[int], values: Any, naming: Optional[Naming]) -> List[int]:
    """The state of one sample; nodes without weights are 0 where it does not name them."""
    if not isinstance(values, Mapping):
        if not isinstance(values, Sequence):
            raise PbisingError(f'{values!r} is no list and no dict of bits')
        if len(values) == model.nodes:
            return bits_of(values)
        if len(values) != len(used):
            raise PbisingError(f'it has {len(values)} values, and the model {model.nodes} nodes')
        values = dict(zip(used, values))
    known = {_node(model, key): bit_of(value) for key, value in values.items()}
    if naming and _is_by_label(values, known, used, naming):
        known = {naming.labels[key]: bit_of(value) for key, value in values.items()}
        if model.chains is not None:
            return naming.extend([known[at] for at in range(naming.variables)])
    if None in known:
        unknown = next(key for key in values if _node(model, key) is None)
        raise PbisingError(f'the model has no node {unknown!r}')
    missing = set(used).difference(known)
    if not missing:
        return [known.get(node, 0) for node in range(model.nodes)]
    if naming and model.chains is None and set(known) == set(range(naming.variables)):
        return naming.extend([known[at] for at in range(naming.variables)])
    raise PbisingError(f'it says nothing of node {min(missing)}')


def _node(model: Model, key: Any) -> Optional[int]:
    """The node that a key is the number of, or None."""
    at = int(key) if str(key).isdecimal() else model.nodes
    return at if at < model.nodes else None


def _is_by_label(values: Mapping[Any, Any], known: Mapping[Optional[int], int], used: List[int],
                 naming: Naming) -> bool:
    """Whether the keys of a sample are labels; numbers of nodes go first where all are named."""
    if not all(key in naming.labels for key in values):
        return False
    by_node = None not in known and not set(used).difference(known)
    return not by_node or any(isinstance(key, str) for key in values)


def text_samples(model: Model, text: str) -> Iterator[Known]:
    """All that a text of a solver says of states.

    Read are, also many of them and other lines between: dicts and lists as Python or JSON writes
    them, lines of bits or spins with blanks or commas, tables of dimod and neal, and assignments:
    `v` lines of MaxSAT and pseudo-Boolean solvers, and lines as `x1=1`.
    """
    lines = text.split('\n')
    used: Optional[List[int]] = None
    found: List[Known] = [*_dicts(text), *_lists(text), *_plain_lines(lines)]
    for known in found:
        if isinstance(known, list) and len(known) != model.nodes:
            used = model.used() if used is None else used
            if len(known) != len(used):
                continue
            known = dict(zip(used, known))
        elif isinstance(known, dict) and max(known) >= model.nodes:
            continue
        yield known
    for known in [*text_assignments(lines, model.variables), *_named_values(model, lines)]:
        yield _on_chains(model, known)


def _bits_of(words: Sequence[str]) -> Optional[List[int]]:
    """The bits that words are, or None where one is no bit and no spin."""
    if len(words) == 1 and len(words[0]) > 1 and words[0] not in VALUES:
        words = list(words[0])
    if not words or not all(word in VALUES for word in words):
        return None
    return [VALUES[word] for word in words]


def _dicts(text: str) -> Iterator[Dict[int, int]]:
    """The samples in braces."""
    for inside in re.findall(r'\{([^{}]*)\}', text):
        pairs = PAIR.findall(inside)
        if pairs and all(value in VALUES for _, value in pairs):
            yield {int(node): VALUES[value] for node, value in pairs}


def _lists(text: str) -> Iterator[List[int]]:
    """The samples in brackets."""
    for inside in re.findall(r'\[([^\[\]]*)\]', text):
        bits = _bits_of(re.sub(r'[\w.]+\(([-+\d.]+)\)|,', r' \1 ', inside).split())
        if bits is not None:
            yield bits


def _columns(words: Sequence[str]) -> Optional[List[int]]:
    """The nodes that the first line of a table names, or None where it is no such line."""
    if 'energy' not in words or not words[0].isdigit():
        return None
    nodes = words[:words.index('energy')]
    if not all(node.isdigit() for node in nodes):
        raise PbisingError('the table leaves out columns: write the samples as dicts')
    return [int(node) for node in nodes]


def _plain_lines(lines: Sequence[str]) -> Iterator[Known]:
    """The samples of tables, and of lines of bits or spins."""
    nodes: Optional[List[int]] = None
    for words in (line.translate(COMMAS).split() for line in lines):
        if not words or words[0] == 'v':
            continue
        nodes = _columns(words) or nodes
        if nodes and len(words) > len(nodes) + 1 and words[0].isdigit():
            bits = _bits_of(words[1:len(nodes) + 1])
            if bits is not None and len(bits) == len(nodes):
                yield dict(zip(nodes, bits))
                continue
        if words[0] == 'state' or words[1:2] and words[1].startswith('solution('):
            words = words[1 if words[0] == 'state' else 2:]
        bits = _bits_of(words)
        if bits is not None:
            yield bits


def text_assignments(lines: Sequence[str], variables: int) -> Iterator[Dict[int, int]]:
    """The assignments of `v` lines; lines that follow each other are one, up to a 0."""
    known: Dict[int, int] = {}
    for words in map(str.split, [*lines, '']):
        value = words[1:] if words[:1] == ['v'] else []
        if len(value) == 1 and len(value[0]) == variables and set(value[0]) <= set('01'):
            yield dict(enumerate(map(int, value[0])))
            continue
        for word in value:
            literal = LITERAL.fullmatch(word)
            if not literal or int(literal[2]) > variables:
                raise PbisingError(f'{word} is no literal of {variables} variables')
            if literal[2] != '0':
                known[int(literal[2]) - 1] = int(not literal[1])
        if known and (not value or value[-1] == '0'):
            yield known
            known = {}


def _named_values(model: Model, lines: Sequence[str]) -> Iterator[Dict[int, int]]:
    """The assignments of lines as `x1=1 x2=0`; a name that comes again begins another."""
    places: Dict[str, int] = {}
    known: Dict[int, int] = {}
    for line in lines:
        if '=' not in line or NAMED.sub('', line.strip()):
            continue
        places = places or {str(name): at for at, name in enumerate(model.names())}
        for name, value in NAMED.findall(line):
            if name not in places or value not in VALUES:
                raise PbisingError(f'{name}={value} is no bit of a variable, as '
                                   f'{next(iter(places), "x1")}=1 is')
            if places[name] in known:
                yield known
                known = {}
            known[places[name]] = VALUES[value]
    if known:
        yield known


def _on_chains(model: Model, known: Dict[int, int]) -> Dict[int, int]:
    """The bits of variables, on the qubits of a graph where the model has one."""
    if model.chains is None:
        return known
    return {qubit: bit for node, bit in known.items() for qubit in model.chains[node]}


def written(state: Iterable[Any]) -> str:
    """A state as a line."""
    return ''.join(['1' if bit else '0' for bit in state])


def first_state(text: str, count: int, name: str = 'text') -> List[int]:
    """The bits of the first line that is a state of so many bits, as the program takes it, or that
    is such a state behind the word `state`."""
    for line in text.split('\n'):
        words = line.split()
        if len(words) == 2 and words[0] == 'state':
            words = words[1:]
        bits = words[0] if len(words) == 1 else ''
        if len(words) < 2 and len(bits) == count and set(bits) <= set('01+-'):
            return [int(bit in '1+') for bit in bits]
    raise PbisingError(f'{name}: no state of {count} characters')

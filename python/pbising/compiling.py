"""Compiling a problem, and what the program tells of its model."""
from __future__ import annotations

import os
from dataclasses import dataclass, field
from operator import index
from typing import Any, Dict, Iterable, List, Mapping, Optional, Sequence, Tuple, Union

from .decoding import Decoded, Decoding, Told, decoded, rank
from .elimination import certificate, elimination_order
from .errors import PbisingError, TextError, UsageError
from .graphs import chain_map
from .hardware import hardware, listed, whole_map
from .keys import FILES, ON_QUBITS, fault
from .models import Model, Size, parse
from .program import FileWord, Word, run
from .repair import repaired
from .samples import Naming, Sample, states_of, written
from .sources import Source, bits_of, source_of
from .texts import PathName, called, read_bytes, text_of

MOST_BYTES = 2 ** 24
WANTED = {'map=': 'the number of the next node, and its qubits,',
          'dead=': 'a qubit, or two qubits that are joined,',
          'graph=': 'a qubit from 0 to 2^20 - 1, or two that are coupled,',
          'order=': 'each node of the model once',
          '': 'a whole number, and then literals of nodes as 5 and ~5,'}


@dataclass
class Answer:
    """What the program wrote of a state: for `solve` and `prove` the cost is the optimum, and None
    where the problem is infeasible; for `extend` it is that of the assignment."""

    energy: int
    cost: Optional[int] = None
    state: Optional[List[int]] = None
    assignment: Optional[List[int]] = None
    values: Dict[Any, Any] = field(default_factory=dict)

    @property
    def feasible(self) -> bool:
        """Whether the cost is finite."""
        return self.cost is not None

    @property
    def optimum(self) -> Optional[int]:
        """The cost, which is the least one of the problem after `solve` and `prove`."""
        return self.cost


@dataclass
class Request:
    """What a model is made of: a problem, a target, and keys with the contents of their files."""

    source: Source
    target: str
    keys: Dict[str, Word]

    def values(self) -> Dict[str, str]:
        """What stands behind the = of each key."""
        return _values(self.keys)

    def run(self, command: str, *files: FileWord, **keys: Any) -> bytes:
        """The output of a command of the program for this model."""
        source = self.source
        values = {**self.keys, **words_of(keys)}
        words: List[Word] = [command, source.format, self.target,
                             FileWord(source.name, source.data), *files, *values.values()]
        try:
            return run(words)
        except TextError as told:
            raise _explained(told, source, words) from None
        except UsageError as told:
            exact = fault(command, source.format, self.target, _values(values))
            raise UsageError(2, f'usage: {exact}') if exact else told from None


@dataclass(repr=False)
class CompiledModel(Model):
    """A model that knows what it was made of."""

    request: Request = field(default=None, repr=False)  # type: ignore[assignment]

    @property
    def source(self) -> Source:
        """The problem."""
        return self.request.source

    def names(self) -> List[Any]:
        """What the variables are called."""
        return self.source.names(self.variables)

    def decode(self, samples: Any, repair: bool = False) -> Decoding:
        """What samples mean.

        They are a dict, a list or an array of bits or spins, many of these, a dimod sample set, or
        the text that a solver wrote. A dict is by nodes, or by what `labels()` calls them; one of
        the variables alone has the state that `extend` gives. Cost and energy are those that the
        program's `evaluate` tells; what is broken the package counts once it is asked for. A
        program without `evaluate` confirms the best sample by its `decode`; the package counts
        the others.

        With `repair` a broken sample becomes an assignment of finite cost, below the energy that
        the sample has, where what it breaks has a penalty of its own by `penalty=local`. (With
        `chain=cut` a sample with broken chains may lie below all costs.)
        """
        labels = self.labels() if self.chains is None else self.names()
        naming = Naming({label: node for node, label in enumerate(labels)}, self.variables,
                        self._extended)
        states = states_of(self, samples, naming)
        told = self._evaluated(states)
        found = decoded(self, self.source, states, told)
        if told is None:
            best = min(found, key=rank)
            _confirm(best, *self._decoded(best.state))
        if repair:
            found = repaired(self, self.source, self.request.values(), found)
        by = 'package' if told is None else 'program'
        return Decoding(found, len(self.chains or ()), by, self)

    def _extended(self, bits: List[int]) -> List[int]:
        """The state of an assignment."""
        return self.extend(bits).state or []

    def extend(self, assignment: Union[Mapping[Any, Any], Sequence[Any]]) -> Answer:
        """The state of the least energy for an assignment: a list of bits, or a dict by names."""
        bits = self.source.bits(assignment)
        answer = self._answer(self.request.run('extend', _state_file('assignment', bits)))
        answer.assignment, answer.values = bits, self.source.values(bits)
        return answer

    def solve(self, **keys: Any) -> Answer:
        """A least state and the optimum, by elimination; `WidthError` where the model is too wide.

        `solve(order=[..])` eliminates the nodes in this order, and `solve(order='auto')` in the
        one of `elimination_order`.
        """
        if keys.get('order') == 'auto':
            keys['order'] = elimination_order(self).nodes
        return self._answer(self.request.run('solve', **keys))

    def prove(self, state: Optional[Sequence[Any]] = None,
              lines: Optional[str] = None) -> Answer:
        """The optimum, where a certificate shows that a state is least.

        Without them both are looked for by elimination, which serves for models of small width.
        """
        if state is None or lines is None:
            found = certificate(self)
            state, lines = found.state, found.text
        bits = bits_of(state)
        files = (_state_file('state', bits),
                 FileWord('certificate', lines.encode()))
        answer = self._answer(self.request.run('prove', *files))
        answer.state = bits
        return answer

    def _answer(self, output: bytes) -> Answer:
        rows = dict(_rows(output))
        cost = rows.get('optimum', rows.get('cost', 'infinite'))
        bits = _bits(rows.get('assignment'))
        values = {} if bits is None else self.source.values(bits)
        return Answer(int(rows['energy']), None if cost == 'infinite' else int(cost),
                      _bits(rows.get('state')), bits, values)

    def _decoded(self, state: List[int]) -> Tuple[Optional[int], int]:
        """Cost and energy of a state by the program."""
        answer = self._answer(self.request.run('decode', _state_file('state', state)))
        return answer.cost, answer.energy

    def _evaluated(self, samples: Iterable[Sample]) -> Optional[Dict[str, Told]]:
        """Cost and energy of each state, as it is written, by the program, or None where it has no
        `evaluate`."""
        told: List[Told] = []
        states = list(dict.fromkeys(written(one.state) for one in samples))
        step = max(1, (MOST_BYTES - 1) // (self.nodes + 1))
        if self.nodes == 0:
            return None
        for start in range(0, len(states), step):
            lines = ''.join(f'{state}\n' for state in states[start:start + step])
            try:
                output = self.request.run('evaluate', FileWord('samples', lines.encode()))
            except UsageError:
                return None
            for words in map(str.split, output.decode().split('\n')):
                if words[:1] == ['sample']:
                    told.append((None if words[3] == 'infinite' else int(words[3]), int(words[5])))
        if len(told) != len(states):
            raise PbisingError(f'the program tells of {len(told)} samples, not of {len(states)}')
        return dict(zip(states, told))


def _explained(told: TextError, source: Source, words: Sequence[Word]) -> TextError:
    """A fault with the token, or the line, and what was wanted there."""
    if told.name == source.name:
        try:
            source.problem
        except TextError as exact:
            if (exact.line, exact.kind) == (told.line, told.kind):
                return exact
    for word in words:
        if isinstance(word, FileWord) and word.called == told.name and word.before in WANTED:
            return TextError(told.name, told.line, told.kind, _token_of(word, told),
                             WANTED[word.before])
    return told


def _token_of(word: FileWord, told: TextError) -> Optional[str]:
    """What stands where a file is wrong: its line, or in an order the node that comes again."""
    lines = text_of(word.data).split('\n')
    if told.kind == 'end':
        return None
    seen = set(' '.join(lines[:told.line - 1]).split())
    for token in lines[told.line - 1].split() if word.before == 'order=' else ():
        if token in seen:
            return token
        seen.add(token)
    return lines[told.line - 1].strip()


def compile(source: Union[Source, PathName], format: Optional[str] = None, target: str = 'qubo',
            **keys: Any) -> CompiledModel:
    """The model of a problem.

    The source is the name of a file, or a text (a str with a line feed in it), or what one of the
    writers gives. Without a format it is the ending of the file's name. Keys are those of the
    program, as `high='rosenberg'` or `rows=2`; one that is None is left out. `map`, `dead` and
    `graph` are names of files, or texts, or a dict of chains by nodes, a list of qubits and of
    pairs, and whatever `hardware` takes. With the target `graph` the chains may also be by labels
    of nodes, and nodes without couplers need none.
    """
    request = _request(source, format, target, keys)
    model = parse(request.run('compile'))
    return CompiledModel(**vars(model), request=request)


def size(source: Union[Source, PathName], format: Optional[str] = None, target: str = 'qubo',
         **keys: Any) -> Size:
    """How large the model of a problem is; a program without `size` makes the model for that."""
    request = _request(source, format, target, keys)
    try:
        rows = dict(_rows(request.run('size')))
    except UsageError:
        return parse(request.run('compile')).size()
    return Size(**{name: int(rows[name]) for name in Size.__dataclass_fields__})


def _request(source: Union[Source, PathName], layout: Optional[str], target: str,
             keys: Mapping[str, Any]) -> Request:
    request, chains = Request(source_of(source, layout), target, {}), keys.get('map')
    if target != 'graph' or not isinstance(chains, Mapping):
        request.keys = words_of(keys)
        return request
    request.keys = words_of({**keys, 'map': 'map\n'})
    wrong = fault('compile', request.source.format, target, request.values())
    if wrong:
        raise UsageError(2, f'usage: {wrong}')
    request.keys['map'] = FileWord('map', chain_map(_whole_map(request, chains)).encode(), 'map=')
    return request


def _whole_map(request: Request, chains: Mapping[Any, Any]) -> Mapping[Any, Any]:
    """The chains of all nodes, by numbers; the model on nodes is made only where they are not."""
    keys = {key: word for key, word in request.keys.items() if key not in ON_QUBITS['graph']}
    nodes, graph = Request(request.source, 'ising', keys), request.keys['graph']
    if set(chains) == set(range(int(dict(_rows(nodes.run('size')))['nodes']))):
        return chains
    model = CompiledModel(**vars(parse(nodes.run('compile'))), request=nodes)
    return whole_map(chains, model, text_of(graph.data) if isinstance(graph, FileWord) else '')


def words_of(keys: Mapping[str, Any]) -> Dict[str, Word]:
    """The words of keys; what files hold is remembered. A key that is None is left out."""
    return {key: _file_word(key, value) if key in FILES else f'{key}={_plain(value)}'
            for key, value in keys.items() if value is not None}


def _values(words: Mapping[str, Word]) -> Dict[str, str]:
    """What stands behind the = of each key."""
    return {key: word.called if isinstance(word, FileWord) else word.partition('=')[2]
            for key, word in words.items()}


def _plain(value: Any) -> Any:
    """A value as a word has it: a double that is whole as a whole number."""
    return int(value) if isinstance(value, float) and value.is_integer() else value


def _file_word(key: str, value: Any) -> FileWord:
    """The word of a key whose value is a file, a text, a dict of chains, or a list of numbers, in
    a list of dead parts also of pairs."""
    before = f'{key}='
    if key == 'graph' and not isinstance(value, (str, os.PathLike)):
        return FileWord(key, hardware(value).encode(), before)
    value = value.tolist() if hasattr(value, 'tolist') else value
    if isinstance(value, Mapping):
        return FileWord(key, chain_map(value).encode(), before)
    if isinstance(value, str) and ('\n' in value or not value):
        return FileWord(key, value.encode(), before)
    if isinstance(value, (str, os.PathLike)):
        data = read_bytes(value)
        if key == 'graph' and data.lstrip()[:1] in (b'{', b'['):
            data = hardware(listed(text_of(data))).encode()
        return FileWord(called(value), data, before)
    if not isinstance(value, Iterable) or isinstance(value, bytes):
        raise PbisingError(f'{key}={value!r} is no name of a file, no text and no list')
    lines = [_line_of(key, part) for part in value]
    return FileWord(key, ''.join(f'{line}\n' for line in lines).encode(), before)


def _line_of(key: str, part: Any) -> str:
    """The line of a number, or of some of them."""
    numbers = sorted(part) if isinstance(part, (set, frozenset)) else part
    numbers = numbers if isinstance(numbers, (list, tuple)) else [numbers]
    try:
        return ' '.join(str(index(number)) for number in numbers)
    except TypeError:
        raise PbisingError(f'{key}=: {part!r} is no number and no pair of numbers') from None


def _state_file(name: str, bits: Sequence[int]) -> FileWord:
    return FileWord(name, f'{written(bits)}\n'.encode())


def _rows(output: bytes) -> List[Tuple[str, str]]:
    """The rows of an answer: a word, and what follows."""
    rows = []
    for line in output.decode().split('\n'):
        word, _, rest = line.partition(' ')
        rows.append((word, rest))
    return rows


def _bits(text: Optional[str]) -> Optional[List[int]]:
    return None if text is None else [int(bit) for bit in text]


def _confirm(one: Decoded, cost: Optional[int], energy: int) -> None:
    """Refuses an answer of the program that the package does not count too."""
    if (one.cost, one.energy) != (cost, energy):
        raise PbisingError(f'the program tells the cost {cost} and the energy {energy} of a '
                           f'sample, and the package {one.cost} and {one.energy}')

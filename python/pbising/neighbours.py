"""Readers of texts that other tools write, into problems of ours: each gives a `Source`.

    from_coo     dimod's COO, of bits or spins
    from_rudy    a graph of rudy, as G-set has them, for the maximum cut
    from_opb     OPB as some tools write it: `+1*x1`, `x1` without a number, `x1 + x2`
    from_cnf     a plain CNF, `p cnf`
"""
from __future__ import annotations

import re
from typing import Dict, Iterator, List, NoReturn, Tuple

from .errors import TextError
from .sources import Source
from .texts import Cursor, PathName, called, read_bytes, text_of, tokens_of, whole
from .writers import from_ising, from_qubo

VARTYPE = re.compile(r'#\s*vartype\s*=\s*(\w+)')
COMMENT = re.compile(r'[ \t\r]*\*')
OPB_TOKEN = re.compile(r'[ \t\r]+|[;\[\]]|[<>=]+|[^ \t\r;<>=:\[\]]*:|[^ \t\r;<>=:\[\]]+')
OPB_LITERAL = re.compile(r'([+-]?)(~?x[0-9]+)')
OPB_WORD = re.compile(r'min|min:|soft:|:|;|[][]|[<>=]+')
MOST_NODES = 2 ** 20
Edge = Tuple[int, int]


def from_coo(source: PathName) -> Source:
    """A binary quadratic model as dimod's COO writes it: rows `i j weight`, and a first line
    `# vartype=BINARY` or `# vartype=SPIN`."""
    name, text = _read(source)
    found = VARTYPE.search(text)
    vartype = found[1] if found else ''
    if vartype not in ('BINARY', 'SPIN'):
        raise TextError(name, 1, 'word', vartype or text.split('\n')[0],
                        '`# vartype=BINARY` or `# vartype=SPIN`')
    rows: Dict[Edge, int] = {}
    for line, words in _lines(text, '#'):
        i, j, weight = _numbers(name, line, words, ('a node', 'a node', 'a whole weight'))
        rows[i, j] = rows.get((i, j), 0) + weight
    if vartype == 'BINARY':
        return from_qubo(rows)
    fields = {i: weight for (i, j), weight in rows.items() if i == j}
    return from_ising(fields, {pair: w for pair, w in rows.items() if pair[0] != pair[1]})


def from_rudy(source: PathName) -> Source:
    """A graph as rudy writes it, for the maximum cut: a line with the numbers of nodes and edges,
    and a line `i j weight` for each edge, nodes counted from 1. The cost is the weight of the cut,
    below 0."""
    name, text = _read(source)
    lines = _lines(text, '#')
    if not lines:
        raise TextError(name, 1, 'end', None, 'the numbers of nodes and edges')
    nodes, count = _numbers(name, *lines[0], ('the number of nodes', 'the number of edges'))
    if not 0 <= nodes <= MOST_NODES:
        raise TextError(name, lines[0][0], 'range', str(nodes), f'at most {MOST_NODES} nodes')
    weights: Dict[Edge, int] = {(node, node): 0 for node in range(1, nodes + 1)}
    for line, words in lines[1:]:
        node = f'a node from 1 to {nodes}'
        numbers = _numbers(name, line, words + ['1'] * (len(words) == 2), (node, node, 'a weight'))
        i, j, weight = numbers
        for end in i, j:
            if not 1 <= end <= nodes:
                raise TextError(name, line, 'range', str(end), node)
            weights[end, end] -= weight
        weights[i, j] = weights.get((i, j), 0) + 2 * weight
    if len(lines) - 1 != count:
        line, words = lines[-1]
        kind, token = ('end', None) if len(lines) - 1 < count else ('extra', words[0])
        raise TextError(name, line, kind, token, f'a graph of {count} edges')
    return from_qubo(weights)


def from_opb(source: PathName) -> Source:
    """An OPB file with what some tools and people write: a `*` between a number and a literal,
    blanks behind a sign, and literals without a number, which is 1 then. A word of no OPB file is
    refused; what else is wrong is told by `compile`."""
    name, text = _read(source)
    numbered = _Numbered(name)
    lines = [line if COMMENT.match(line) else ''.join(numbered.pieces(number, line))
             for number, line in enumerate(text.split('\n'), 1)]
    return Source('\n'.join(lines).encode(), 'opb', name)


class _Numbered:
    """Puts a number before each literal of an OPB text that has none. A sign that stands alone is
    put before what follows it."""

    def __init__(self, name: str) -> None:
        self.name, self.last, self.sign, self.given = name, '', '', False

    def pieces(self, number: int, line: str) -> Iterator[str]:
        """The pieces of a line."""
        for piece in OPB_TOKEN.findall(line.replace('*', ' ')):
            if piece.isspace():
                yield '' if self.sign else piece
                continue
            if self.sign and piece[0] not in '~x0123456789':
                self._fault(number, piece, 'a number or a literal behind a sign')
            if piece in ('+', '-'):
                self.sign = piece
                continue
            yield self._piece(number, self.sign + piece)
            self.last, self.sign = self.sign + piece, ''

    def _piece(self, number: int, piece: str) -> str:
        """A piece as OPB has it."""
        literal = OPB_LITERAL.fullmatch(piece)
        after_literal = bool(OPB_LITERAL.fullmatch(self.last))
        if literal and (literal[1] or not after_literal and whole(self.last) is None):
            self.given = True
            return f'{literal[1]}1 {literal[2]}'
        if literal and after_literal and self.given:
            self._fault(number, piece, 'a sign, a number or an operator')
        if not (literal or whole(piece) is not None or OPB_WORD.fullmatch(piece)):
            self._fault(number, piece, 'a term, an operator, `min:` or `;`')
        self.given = False
        return piece

    def _fault(self, number: int, piece: str, wanted: str) -> NoReturn:
        raise TextError(self.name, number, 'word', piece, wanted)


def from_cnf(source: PathName, hard: bool = True) -> Source:
    """A plain CNF, `p cnf`: all clauses are hard, so a cost is 0; or each costs 1 where it is
    broken, as in MaxSAT."""
    name, text = _read(source)
    cursor = Cursor(name, tokens_of(text))
    cursor.one_of(('p',), '`p cnf`')
    cursor.one_of(('cnf',), '`cnf`')
    variables = cursor.number('the number of variables, at least 0,', least=0)
    count = cursor.number('the number of clauses, at least 0,', least=0)
    lines = [f'p wcnf {variables} {count} {count + 1}']
    literal = f'a literal of a variable up to {variables}, or 0,'
    for _ in range(count):
        clause: List[int] = []
        while not clause or clause[-1]:
            clause.append(cursor.number(literal, -variables, variables))
        lines.append(' '.join(map(str, [count + 1 if hard else 1, *clause])))
    if cursor.peek() not in (None, '%'):
        cursor.take('')
        cursor.fault('extra', f'the end of the text (the header counts {count} clauses)')
    return Source(''.join(f'{line}\n' for line in lines).encode(), 'wcnf', name)


def _read(source: PathName) -> Tuple[str, str]:
    """The name and the text of a file, or of a text."""
    if isinstance(source, str) and '\n' in source:
        return 'text', source
    return called(source), text_of(read_bytes(source))


def _lines(text: str, comment: str) -> List[Tuple[int, List[str]]]:
    """The words of each line that has some and is no comment, with its number."""
    lines = ((number, line.split()) for number, line in enumerate(text.split('\n'), 1))
    return [(number, words) for number, words in lines
            if words and not words[0].startswith(comment)]


def _numbers(name: str, line: int, words: List[str], wanted: Tuple[str, ...]) -> List[int]:
    """The numbers of a line, as many as are wanted."""
    numbers = []
    for word, what in zip(words, wanted):
        value = whole(word)
        if value is None:
            raise TextError(name, line, 'number', word, f'{what} (a whole number)')
        numbers.append(value)
    if len(words) != len(wanted):
        token = words[len(wanted)] if len(words) > len(wanted) else None
        what = 'the end of the line' if token else wanted[len(words)]
        raise TextError(name, line, 'extra' if token else 'end', token, what)
    return numbers

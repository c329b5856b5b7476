"""Readers of problem files: weighted CNF, OPB, WBO, polynomials, QUBO and Ising files.

They take exactly what the program takes but for its limits, and name the first token that cannot
stand in its place.
"""
from __future__ import annotations

import re
from typing import Dict, Iterator, List, Optional, Pattern, Sequence, Tuple

from .errors import PbisingError
from .keys import FORMATS
from .problems import Clause, Constraint, Part, SourceProblem, Term
from .rows import read_rows
from .texts import Cursor, Token, one_of, text_of, tokens_of

OPERATORS = ('>=', '<=', '=')
PIECE = re.compile(r';|[<>=]+|[^ \t\r\n;<>=:]*:|[^ \t\r\n;<>=:]+')
WBO_PIECE = re.compile(r'[;\[\]]|[<>=]+|[^ \t\r\n;<>=:\[\]]*:|[^ \t\r\n;<>=:\[\]]+')
VARIABLE = re.compile(r'(~?)x0*([0-9]+)')
NAME = re.compile(r'(~?)([A-Za-z_][A-Za-z0-9_]*)')
LITERAL = 'a literal (x and an index, ~ before it for the complement)'


def read_problem(layout: str, data: bytes, name: str = 'text') -> SourceProblem:
    """The problem of a text in one of the formats."""
    if layout not in FORMATS:
        raise PbisingError(f'{layout} is no format: {", ".join(FORMATS)}')
    if layout in ('qubo', 'ising'):
        rows = read_rows(name, data, (layout,))
        return SourceProblem(rows.nodes, rows=rows)
    text = text_of(data)
    if layout == 'wcnf':
        return _read_wcnf(Cursor(name, tokens_of(text)))
    if layout == 'poly':
        return _read_poly(Cursor(name, tokens_of(text)))
    pieces = Cursor(name, _pieces_of(text, PIECE if layout == 'opb' else WBO_PIECE))
    return _read_opb(pieces) if layout == 'opb' else _read_wbo(pieces)


def _read_wcnf(cursor: Cursor) -> SourceProblem:
    """Weighted CNF: the layout with a header, or that of 2022."""
    if cursor.peek() is None:
        cursor.take('`p wcnf`, or a clause,')
    if cursor.peek() == 'p':
        return _read_older(cursor)
    parts: List[Part] = []
    largest = 0
    while cursor.peek() is not None:
        start = cursor.next_line()
        if cursor.peek() == 'h':
            cursor.take('h')
            weight = None
        else:
            weight = _weight_of_2022(cursor)
        literals = _clause(cursor, None)
        largest = max([largest, *(abs(literal) for literal in literals)])
        parts.append(Clause(start, literals, weight))
    return SourceProblem(largest, parts)


def _weight_of_2022(cursor: Cursor) -> int:
    """A weight, where a clause begins with `h` or one."""
    wanted = '`h`, or a weight of at least 0,'
    try:
        return cursor.number(wanted, least=0)
    except PbisingError as fault:
        if getattr(fault, 'kind', '') == 'number':
            cursor.fault('word', wanted)
        raise


def _read_older(cursor: Cursor) -> SourceProblem:
    """The layout that begins with `p wcnf V C TOP`."""
    start = cursor.next_line()
    cursor.take('p')
    _on_line(cursor, start, '`wcnf`')
    cursor.one_of(('wcnf',), '`wcnf`')
    _on_line(cursor, start, 'the number of variables')
    variables = cursor.number('the number of variables, at least 0,', least=0)
    _on_line(cursor, start, 'the number of clauses')
    count = cursor.number('the number of clauses, at least 0,', least=0)
    top = None
    if cursor.next_line() == start:
        top = cursor.number('TOP, a number of at least 1,', least=1)
        if cursor.next_line() == start:
            cursor.take('')
            cursor.fault('extra', 'the end of the header')
    parts: List[Part] = []
    for _ in range(count):
        begun = cursor.next_line()
        weight = cursor.number('a weight of at least 0', least=0)
        literals = _clause(cursor, variables)
        parts.append(Clause(begun, literals,
                            None if top is not None and weight >= top else weight))
    if cursor.peek() is not None:
        cursor.take('')
        cursor.fault('extra', f'the end of the text (the header counts {count} clauses)')
    return SourceProblem(variables, parts)


def _on_line(cursor: Cursor, line: int, wanted: str) -> None:
    """Refuses a token of the header on another line."""
    if cursor.next_line() not in (line, 0):
        cursor.take(wanted)
        cursor.fault('word', f'{wanted} on the line of `p`')


def _clause(cursor: Cursor, variables: Optional[int]) -> Tuple[int, ...]:
    """The literals of a clause, up to its 0."""
    wanted = ('a literal or 0' if variables is None
              else f'a literal of a variable up to {variables}, or 0,')
    least = None if variables is None else -variables
    literals: List[int] = []
    while True:
        literal = cursor.number(wanted, least, variables)
        if literal == 0:
            return tuple(literals)
        literals.append(literal)


def _pieces_of(text: str, piece: Pattern[str]) -> Iterator[Token]:
    """The tokens of an OPB or WBO text, each with its line."""
    for number, line in enumerate(text.split('\n'), 1):
        if not line.lstrip(' \t\r').startswith('*'):
            for word in piece.findall(line):
                yield number, word


def _read_opb(cursor: Cursor) -> SourceProblem:
    """An objective or none, and constraints."""
    objective: List[Term] = []
    if cursor.peek() == 'min:':
        cursor.take('min:')
        objective = _sum(cursor, (';',), 2 ** 64)
    parts: List[Constraint] = []
    while cursor.peek() is not None:
        parts.append(_constraint(cursor, None, cursor.next_line(), 2 ** 64))
    return SourceProblem(_largest(objective, parts), list(parts), objective)


def _read_wbo(cursor: Cursor) -> SourceProblem:
    """A head with a TOP or none, and constraints, of which some have a weight."""
    cursor.one_of(('soft:',), '`soft:`')
    top = None
    if cursor.peek() != ';':
        top = cursor.number('TOP, a number of at least 1, or `;`', least=1)
    cursor.one_of((';',), '`;`')
    parts: List[Constraint] = []
    while cursor.peek() is not None:
        start, weight = cursor.next_line(), None
        if cursor.peek() == '[':
            cursor.take('[')
            weight = cursor.number('a weight of at least 0', least=0)
            cursor.one_of((']',), '`]`')
        parts.append(_constraint(cursor, weight, start, 2 ** 63))
    return SourceProblem(_largest([], parts), list(parts), top=top)


def _constraint(cursor: Cursor, weight: Optional[int], start: int, beyond: int) -> Constraint:
    """A sum, an operator, a number and a `;`."""
    terms = _sum(cursor, OPERATORS, beyond)
    operator = cursor.word
    bound = cursor.number('a whole number behind the operator')
    cursor.one_of((';',), '`;`')
    return Constraint(start, terms, operator, bound, weight)


def _sum(cursor: Cursor, ends: Tuple[str, ...], beyond: int) -> List[Term]:
    """Terms, up to and with one of the tokens that end a sum."""
    quoted = [f'`{word}`' for word in ends]
    wanted = one_of(['a whole number', *quoted])
    terms: List[Term] = []
    while True:
        word = cursor.take(wanted)
        if word in ends:
            return terms
        coefficient = _coefficient(cursor, word, wanted)
        literals = [_literal(cursor, cursor.take(LITERAL), beyond)]
        while (cursor.peek() or ' ')[0] in 'x~':
            if not VARIABLE.fullmatch(cursor.peek() or ''):
                break
            literals.append(_literal(cursor, cursor.take(LITERAL), beyond))
        terms.append((coefficient, tuple(literals)))
        wanted = one_of(['a whole number', 'a literal', *quoted])


def _coefficient(cursor: Cursor, word: str, wanted: str) -> int:
    """The number that begins a term; what can stand elsewhere is another word."""
    value = cursor.value()
    if value is not None:
        return value
    elsewhere = word[0] in 'x~' or word[-1] == ':' or word == ';' or word in OPERATORS
    cursor.fault('word' if elsewhere else 'number', wanted)


def _literal(cursor: Cursor, word: str, beyond: int) -> int:
    """A literal, as a number."""
    found = VARIABLE.fullmatch(word)
    if not found:
        cursor.fault('word', LITERAL)
    index = int(found[2]) if len(found[2]) <= 20 else beyond
    if not 0 < index < beyond:
        cursor.fault('range', f'an index from 1 to {beyond - 1}')
    return -index if found[1] else index


def _largest(objective: List[Term], parts: Sequence[Constraint]) -> int:
    """The largest index of a variable."""
    sums = [objective, *(part.terms for part in parts)]
    return max((abs(l) for terms in sums for _, literals in terms for l in literals), default=0)


def _read_poly(cursor: Cursor) -> SourceProblem:
    """A product a line; variables are numbered as their names appear."""
    numbers: Dict[str, int] = {}
    products: List[Term] = []
    while cursor.peek() is not None:
        line, literals = cursor.next_line(), []
        coefficient = cursor.number('a whole number at the start of the line')
        while cursor.next_line() == line:
            found = NAME.fullmatch(cursor.take('a name'))
            if not found:
                cursor.fault('word', 'a name of letters, digits and _, ~ before it,')
            number = numbers.setdefault(found[2], len(numbers) + 1)
            literals.append(-number if found[1] else number)
        products.append((coefficient, tuple(literals)))
    return SourceProblem(len(numbers), objective=products, names=list(numbers))

"""The rows of QUBO files and Ising files, which models are written in too.

A text that is as the program writes it is read at once, as one list of numbers. Any other is read
token by token, which finds the first fault exactly.
"""
from __future__ import annotations

import json
import re
from dataclasses import dataclass
from itertools import islice
from operator import eq, lt, mul
from typing import Any, Dict, List, Optional, Sequence, Tuple

from .texts import BEYOND, Cursor, one_of, text_of, tokens_of

FRONT = re.compile(rb'(?:[ \t\r]*(?:c[^\n]*)?\n)*')
COMMENT = re.compile(rb'^[ \t\r]*c[^\n]*', re.MULTILINE)
HEADER = re.compile(rb'[ \t\r\n]*p[ \t\r\n]+(?:(qubo)[ \t\r\n]+(?:0|unconstrained)|(ising))'
                    rb'((?:[ \t\r\n]+[0-9]{1,18}){3})(?=[ \t\r\n]|\Z)')
PLAIN = b'0123456789+- \t\r\n'
KINDS = ('qubo', 'ising')
COMMAS = bytes.maketrans(b' \n', b',,')


@dataclass
class Rows:
    """Weights of single nodes, and of pairs: each pair once, the lesser node first, ascending."""

    kind: str
    nodes: int
    fields: Dict[int, int]
    heads: List[int]
    tails: List[int]
    couplings: List[int]


def read_rows(name: str, data: bytes, kinds: Tuple[str, ...] = KINDS,
              beyond: Optional[int] = BEYOND) -> Rows:
    """The rows of a text; no weight has a size of `beyond` or more, where that is given."""
    rows = _at_once(data, beyond)
    if rows is None or rows.kind not in kinds:
        rows = _by_tokens(name, data, kinds, beyond)
    return rows


def weighed(rows: Any, bits: Sequence[Any]) -> int:
    """The sum of the weights that count in an assignment of bits: of rows, or of a model, over bits
    in a QUBO, and else over spins."""
    zero = 0 if rows.kind == 'qubo' else -1
    of = [1 if bit else zero for bit in bits].__getitem__
    ends = map(mul, map(of, rows.heads), map(of, rows.tails))
    total: int = (sum(map(mul, rows.fields.values(), map(of, rows.fields)))
                  + sum(map(mul, rows.couplings, ends)))
    return total


def front_of(data: bytes) -> List[str]:
    """The comment lines that stand before the first token."""
    return text_of(data[:_front_end(data)]).split('\n')


def _front_end(data: bytes) -> int:
    """Where the comment lines before the first token end."""
    found = FRONT.match(data)
    return found.end() if found else 0


def _at_once(data: bytes, beyond: Optional[int]) -> Optional[Rows]:
    """The rows where nothing unusual stands in the text, and else None."""
    rest = data[_front_end(data):]
    if b'c' in rest:
        rest = COMMENT.sub(b'', rest)
    header = HEADER.match(rest)
    if not header or rest[header.end():].translate(None, PLAIN):
        return None
    try:
        numbers = _numbers(rest[header.end():])
    except ValueError:
        return None
    kind = (header[1] or header[2]).decode()
    nodes, singles, pairs = map(int, header[3].split())
    return _rows(kind, nodes, singles, pairs, numbers, beyond)


def _numbers(data: bytes) -> List[int]:
    """All numbers of a text; a word that is no number is a `ValueError`.

    With a comma for each blank a text as the program writes it is JSON, which is read in half the
    time of words. It is no JSON where two blanks meet, or a number begins with a + or a 0.
    """
    try:
        numbers: List[int] = json.loads(b'[%b]' % data.strip().translate(COMMAS))
        return numbers
    except ValueError:
        return list(map(int, data.split()))


def _rows(kind: str, nodes: int, singles: int, pairs: int, numbers: List[int],
          beyond: Optional[int]) -> Optional[Rows]:
    """The rows of a list of numbers, or None where they are not as the header says."""
    if len(numbers) != 3 * (singles + pairs):
        return None
    heads, tails, weights = numbers[0::3], numbers[1::3], numbers[2::3]
    if beyond is not None and weights and max(max(weights), -min(weights)) >= beyond:
        return None
    if heads[:singles] != tails[:singles]:
        at = [n for n, same in enumerate(map(eq, heads, tails)) if same]
        rest = [n for n, same in enumerate(map(eq, heads, tails)) if not same]
        heads, tails, weights = ([part[n] for n in at + rest] for part in (heads, tails, weights))
        if len(at) != singles:
            return None
    fields = _summed(heads[:singles], weights[:singles])
    if fields and not 0 <= min(fields) <= max(fields) < nodes:
        return None
    heads, tails, weights = heads[singles:], tails[singles:], weights[singles:]
    if not all(map(lt, heads, tails)):
        if any(map(eq, heads, tails)):
            return None
        heads, tails = ([min(pair) for pair in zip(heads, tails)],
                        [max(pair) for pair in zip(heads, tails)])
    if heads and not 0 <= min(heads) <= max(tails) < nodes:
        return None
    return Rows(kind, nodes, fields, *_merged(nodes, heads, tails, weights))


def _summed(keys: List[int], weights: List[int]) -> Dict[int, int]:
    """The sum of the weights of each key."""
    sums = dict(zip(keys, weights))
    if len(sums) != len(keys):
        sums = dict.fromkeys(keys, 0)
        for key, weight in zip(keys, weights):
            sums[key] += weight
    return sums


def _merged(nodes: int, heads: List[int], tails: List[int],
            weights: List[int]) -> Tuple[List[int], List[int], List[int]]:
    """The pairs, ascending; the weights of equal pairs add up."""
    later = zip(islice(heads, 1, None), islice(tails, 1, None))
    if all(map(lt, zip(heads, tails), later)):
        return heads, tails, weights
    keys = [i * nodes + j for i, j in zip(heads, tails)]
    sums = _summed(keys, weights)
    keys = sorted(sums)
    return [key // nodes for key in keys], [key % nodes for key in keys], [sums[k] for k in keys]


def _by_tokens(name: str, data: bytes, kinds: Tuple[str, ...], beyond: Optional[int]) -> Rows:
    """The rows of a text, or its first fault."""
    cursor = Cursor(name, tokens_of(text_of(data)), beyond)
    cursor.one_of(('p',), one_of([f'`p {kind}`' for kind in kinds]))
    kind = cursor.one_of(kinds, one_of([f'`{kind}`' for kind in kinds]))
    if kind == 'qubo':
        cursor.one_of(('0', 'unconstrained'), 'the topology 0 or `unconstrained`')
    nodes = cursor.number('the number of nodes, at least 0,', least=0)
    singles = cursor.number('the number of rows of nodes, at least 0,', least=0)
    pairs = cursor.number('the number of rows of pairs, at least 0,', least=0)
    numbers: List[int] = []
    left = {True: singles, False: pairs}
    node = f'a node from 0 to {nodes - 1}' if nodes else 'the end of the text (there is no node)'
    while cursor.peek() is not None or any(left.values()):
        i = cursor.number(node, 0, nodes - 1)
        j = cursor.number(node, 0, nodes - 1)
        if not left[i == j]:
            cursor.fault('extra', 'the other node of a row that the header counts')
        left[i == j] -= 1
        numbers += i, j, cursor.number('a whole weight')
    rows = _rows(kind, nodes, singles, pairs, numbers, None)
    assert rows is not None
    return rows

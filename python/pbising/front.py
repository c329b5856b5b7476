"""The commands of the program with words that are easier to say: `pbising compile FILE`.

The format is the ending of the file's name, also before .gz; keys stand as `--high rosenberg` or
`high=rosenberg`. The program makes each answer, and its output is passed on as it is.
"""
from __future__ import annotations

import os
import re
import sys
from dataclasses import dataclass, field
from typing import Dict, Generator, Iterator, List, NamedTuple, Optional, Sequence, Tuple

from .compiling import Request, words_of
from .elimination import certificate, elimination_order
from .errors import PbisingError, ProgramError, ReadError, TextError, UsageError, WidthError
from .keys import FILES, FORMATS, KEYS, TARGETS, near, stands, swapped, told_keys
from .models import parse
from .program import FileWord
from .samples import written
from .sources import format_of, source_of
from .texts import called, read_bytes, write_bytes


class Part(NamedTuple):
    """What a command does, in a line, and the files that it takes behind FILE."""

    help: str
    files: Tuple[str, ...] = ()


PARTS = {
    'compile': Part('write the model of a problem'),
    'size': Part('tell how large the model of a problem is'),
    'decode': Part('tell what a state of the model means', ('STATE',)),
    'evaluate': Part('tell what each of many states costs, and which is best', ('STATES',)),
    'extend': Part('write the state that an assignment has', ('ASSIGNMENT',)),
    'solve': Part('find the optimum by elimination, in an order that is found'),
    'prove': Part('prove the optimum by a certificate, also one that is found',
                  ('STATE', 'CERTIFICATE')),
}
OPTIONS = ('--format', '--target', '--output', *(f'--{key}' for key in KEYS))
KEY = re.compile(r'([a-z]+)=(.*)', re.DOTALL)
OPEN_CLAUSE = re.compile(rb'^(?![ \t\r]*(?:[cp]|$))(?![^\n]*(?<![^ \t\n])0[ \t\r]*$)[^\n]+$', re.M)


@dataclass
class Asked:
    """The words of a command, taken apart."""

    command: str
    files: List[str] = field(default_factory=list)
    keys: Dict[str, str] = field(default_factory=dict)

    def put(self, key: str, value: str) -> None:
        """Notes a key, or an option."""
        if key in self.keys:
            raise UsageError(2, f'{key}= is given twice')
        self.keys[key] = value

    def take(self, *options: str) -> Optional[str]:
        """The value of an option, which is no key of the program."""
        return next((self.keys.pop(name) for name in options if name in self.keys), None)


def run(command: str, words: Sequence[str]) -> Iterator[str]:
    """Runs a command; gives the lines that are for the error output."""
    if {'-h', '--help'} & set(words):
        sys.stdout.write(help_of(command))
        return
    try:
        yield from _run(command, words)
    except UsageError as fault:
        told = re.sub('^usage: ', '', str(fault))
        raise UsageError(2, f'pbising {command}: {told} (pbising {command} --help)') from None
    except ReadError as fault:
        raise ReadError(3, f'{fault}{_like_file(str(fault))}') from None


def status_of(fault: BaseException) -> int:
    """The status of an error, as the program ends with it."""
    if isinstance(fault, TextError):
        return 5
    return fault.status if isinstance(fault, ProgramError) else 2


def help_of(command: str) -> str:
    """The help of a command."""
    part = PARTS[command]
    files = ' '.join(['FILE', *part.files])
    if command == 'prove':
        files = 'FILE [STATE CERTIFICATE]'
    lines = [f'usage: pbising {command} {files} [-o OUT] [--format FORMAT] [--target TARGET]',
             '       [--KEY VALUE | KEY=VALUE ..]', '', f'{part.help}', '',
             '  FILE              the problem; - is the standard input, and .gz is read',
             '  -o, --output OUT  a file for the answer',
             f'  --format FORMAT   {", ".join(FORMATS)} (the ending of FILE)',
             f'  --target TARGET   {", ".join(TARGETS)} (qubo)', '',
             'keys, with their defaults in brackets:', *told_keys(command == 'solve')]
    return ''.join(f'{line}\n' for line in lines)


def _run(command: str, words: Sequence[str]) -> Iterator[str]:
    asked = _asked(command, words)
    layout, target = asked.take('format'), asked.take('target') or 'qubo'
    out = asked.take('output')
    order = asked.keys.pop('order') if asked.keys.get('order') == 'auto' else None
    _check(asked, layout, target)
    request = Request(source_of(asked.files[0], layout), target, words_of(asked.keys))
    if request.source.format == 'wcnf':
        yield from open_clauses(request.source.name, request.source.data)
    files = [FileWord(called(name), read_bytes(name)) for name in asked.files[1:]]
    if command == 'solve':
        output = yield from _solved(request, order is not None)
    elif command == 'prove' and not files:
        output = _proved(request)
    else:
        output = request.run(command, *files)
    if out:
        write_bytes(out, output)
    else:
        sys.stdout.write(output.decode())


def _asked(command: str, words: Sequence[str]) -> Asked:
    """The words of a command, of which the program's own order is taken too."""
    asked, rest = Asked(command), iter(words)
    for word in rest:
        key = KEY.fullmatch(word)
        if word.startswith('-') and word != '-':
            _option(asked, word, rest)
        elif key and not os.path.exists(word):
            asked.put(key[1], key[2])
        else:
            asked.files.append(word)
    wanted = ['FILE', *PARTS[command].files]
    if len(asked.files) == len(wanted) + 2 and not os.path.exists(asked.files[0]):
        for name in 'format', 'target':
            asked.put(name, asked.files.pop(0))
    count = len(asked.files)
    if count < len(wanted) and (command, count) != ('prove', 1):
        behind = ' '.join([command, *asked.files])
        raise UsageError(2, f'{wanted[count]} is missing behind {behind}')
    if count > len(wanted):
        raise UsageError(2, _too_many(asked.files[len(wanted)], asked.files[0]))
    return asked


def _option(asked: Asked, word: str, rest: Iterator[str]) -> None:
    """Takes an option, and its value, which stands behind = or as the next word."""
    name, equals, value = word.partition('=')
    if word.startswith('-o') and not word.startswith('--'):
        name, equals, value = '--output', word[2:], word[2:]
    if name not in OPTIONS:
        raise UsageError(2, stands(name, f'-o or --format, --target or a key, '
                                         f'{", ".join(KEYS)},', OPTIONS))
    if not equals:
        found = next(rest, None)
        if found is None:
            raise UsageError(2, f'a value is missing behind {word}')
        value = found
    asked.put(name[2:], value)


def _too_many(word: str, first: str) -> str:
    """What is wrong with a word behind the files."""
    if word in TARGETS:
        return f'{word!r} stands where a key is wanted; did you mean --target {word}?'
    if first in FORMATS or first in TARGETS:
        return f'{first!r} stands where FILE is wanted; did you mean --format {first}?'
    return stands(word, f'a key, {", ".join(KEYS)},', KEYS)


def _check(asked: Asked, layout: Optional[str], target: str) -> None:
    """Refuses a format and a target that have changed places, and two files of one input."""
    wrong = swapped(layout or '', target)
    if wrong:
        raise UsageError(2, wrong)
    if [*asked.files, *(asked.keys.get(key) for key in FILES)].count('-') > 1:
        raise UsageError(2, 'the standard input is one file only')
    if asked.files[0] == '-' and not layout:
        raise UsageError(2, f'--format is missing for the standard input: {", ".join(FORMATS)}')


def _solved(request: Request, by_order: bool) -> Generator[str, None, bytes]:
    """The optimum; a model that is too wide in its own order is eliminated in one that is found."""
    if not by_order:
        try:
            return request.run('solve')
        except WidthError as wide:
            if 'order' in request.keys:
                raise
            yield f'{wide}: an order is looked for'
    order = elimination_order(parse(request.run('compile')))
    yield f'no node has more than {order.width} neighbours, by {order.name}'
    return request.run('solve', order=order.nodes)


def _proved(request: Request) -> bytes:
    """The optimum, by a state and a certificate that are looked for."""
    found = certificate(parse(request.run('compile')))
    return request.run('prove', FileWord('the state', f'{written(found.state)}\n'.encode()),
                       FileWord('the certificate', found.text.encode()))


def open_clauses(name: str, data: bytes) -> Iterator[str]:
    """A warning where clauses of a weighted CNF run over the ends of their lines."""
    lines = OPEN_CLAUSE.finditer(data)
    first = next(lines, None)
    if first is None or not data[first.end():].strip():
        return
    line = data.count(b'\n', 0, first.start()) + 1
    more = sum(1 for _ in lines)
    others = f', as do {more} more' if more else ''
    yield (f'{name}:{line}: warning: the clause runs over the end of the line{others}: '
           'only a 0 ends a clause')


def _like_file(fault: str) -> str:
    """A question after a file that is called like one that is not there."""
    found = re.fullmatch('cannot read (.*): No such file or directory', fault, re.DOTALL)
    if not found:
        return ''
    folder, name = os.path.split(found[1])
    try:
        names = os.listdir(folder or '.')
    except OSError:
        return ''
    return near(name, names, 0.8)

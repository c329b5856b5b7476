"""What the tests share: where things are, and whether the program is there."""
import contextlib
import io
import os
import sys
import tempfile
import unittest
from itertools import product
from pathlib import Path

ROOT = Path(__file__).resolve().parents[2]
sys.path.insert(0, str(ROOT / 'python'))

import pbising  # noqa: E402 (the path comes first)
from pbising import ProgramMissing, UsageError, find_program  # noqa: E402
from pbising.cli import main  # noqa: E402

EXAMPLES = ROOT / 'examples'
CORPUS = ROOT / 'crates' / 'worked_examples'

QUBO = """c scale 1
c offset -6
c threshold -4
c unit 1
c variables 3
p qubo 0 4 4 6
0 0 -4
1 1 -4
2 2 -4
3 3 -4
0 1 2
0 2 2
0 3 2
1 2 2
1 3 2
2 3 2
"""
ISING = """c scale 4
c offset -2
c threshold 6
c unit 1
c variables 2
p ising 2 2 1
0 0 -2
1 1 -2
0 1 2
"""
CHIMERA = """c scale 4
c offset -17
c threshold -5
c unit 1
c variables 1
c chimera 1 1 4
c chain 0 0 4
p ising 8 2 1
0 0 -1
4 4 -1
0 4 -3
"""
GRAPH = CHIMERA.replace('chimera 1 1 4', 'graph 8')


def program():
    """The path of the program, or None."""
    try:
        return find_program()
    except ProgramMissing:
        return None


needs_program = unittest.skipUnless(
    program(), 'compile_program is not found: build it, or set PBISING_PROGRAM')


def knows(target='qubo', **keys):
    """Whether there is a program, and it takes a target and keys."""
    try:
        pbising.size('p wcnf 0 0\n', 'wcnf', target, **keys)
    except (ProgramMissing, UsageError):
        return False
    return True


def needs_local():
    """Skips a test where the program has no penalties of parts and no clauses of covers."""
    return unittest.skipUnless(knows(penalty='local', slack='clauses'),
                               'compile_program does not know penalty=local and slack=clauses')


def needs_graph():
    """Skips a test where the program has no graphs that are lists."""
    return unittest.skipUnless(knows('graph', graph='', map=''),
                               'compile_program does not know the target graph')


class Array:
    """What has a method `tolist`, as an array of numpy."""

    def __init__(self, values):
        self.values = values

    def tolist(self):
        return self.values

    def __iter__(self):
        return iter(self.values)


def enter_folder(test):
    """A folder of its own, which a test runs in."""
    folder = tempfile.TemporaryDirectory()
    test.addCleanup(folder.cleanup)
    test.addCleanup(os.chdir, os.getcwd())
    os.chdir(folder.name)
    return Path(folder.name)


def states(count):
    """All lists of so many bits."""
    return map(list, product((0, 1), repeat=count))


def command(*words, given=b''):
    """The status, the output and the error output of a command."""
    out, err, entered = io.StringIO(), io.StringIO(), sys.stdin
    sys.stdin = io.TextIOWrapper(io.BytesIO(given))
    try:
        with contextlib.redirect_stdout(out), contextlib.redirect_stderr(err):
            try:
                status = main([str(word) for word in words])
            except SystemExit as done:
                status = done.code
    finally:
        sys.stdin = entered
    return status, out.getvalue(), err.getvalue()

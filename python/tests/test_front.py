"""The commands of the program by the front `pbising`: what it passes on, and what it says of slips."""
import bz2
import gzip
import lzma
import os
import subprocess
import sys
import unittest
from pathlib import Path

from helper import (EXAMPLES, ROOT, command, enter_folder, find_program, needs_program,
                    program)

import pbising
from pbising.front import PARTS, open_clauses
from pbising.keys import CHOICES, KEYS, MEANINGS, fault

HARD = 'p wcnf 2 2 9\n9 1 2 0\n3 -1 0\n'
GRAPH = ('--target', 'chimera', 'rows=1', 'cols=1', 'shore=4')

# Words, and what the answer names: the word, what is wanted there, and a word like it.
SLIPS = (
    (('complie', 'a.wcnf'), "'complie'.*command.*'compile'"),
    (('slove', 'a.wcnf'), "'slove'.*command.*'solve'"),
    (('Size', 'a.wcnf'), "'Size'.*command.*'size'"),
    (('evalute', 'a.wcnf', 'state'), "'evalute'.*command.*'evaluate'"),
    (('frobnicate',), "'frobnicate'.*command"),
    (('compile',), 'FILE is missing'),
    (('decode', 'a.wcnf'), 'STATE is missing'),
    (('evaluate', 'a.wcnf'), 'STATES is missing'),
    (('extend', 'a.wcnf', 'high=rosenberg'), 'ASSIGNMENT is missing'),
    (('prove', 'a.wcnf', 'state'), 'CERTIFICATE is missing'),
    (('compile', 'a.wncf'), "cannot read a.wncf.*'a.wcnf'"),
    (('compile', 'nowhere/at.all'), 'cannot read nowhere/at.all'),
    (('decode', 'a.wcnf', 'stat'), "cannot read stat.*'state'"),
    (('compile', 'a.wcnf', 'hihg=rosenberg'), "'hihg'.*a key, normal.*'high'"),
    (('compile', 'a.wcnf', 'high=rosenburg'), "'rosenburg'.*monomial or rosenberg for high=.*'rosenberg'"),
    (('compile', 'a.wcnf', 'high='), "''.*monomial or rosenberg for high="),
    (('compile', 'a.wcnf', '--hihg', 'rosenberg'), "'--hihg'.*a key, normal.*'--high'"),
    (('compile', 'a.wcnf', '--high', 'rosenburg'), "'rosenburg'.*monomial or rosenberg.*'rosenberg'"),
    (('compile', 'a.wcnf', '--high'), 'a value is missing behind --high'),
    (('compile', 'a.wcnf', '--out', 'm'), "'--out'.*-o or --format.*'--output'"),
    (('compile', 'a.wcnf', '-q'), "'-q'.*-o or --format"),
    (('compile', 'a.wcnf', 'high=monomial', '--high', 'rosenberg'), 'high= is given twice'),
    (('compile', 'a.wcnf', 'bound=4.5'), "'4.5'.*a whole number.*bound="),
    (('compile', 'a.wcnf', '--bound', '1e3'), "'1e3'.*a whole number.*bound="),
    (('compile', 'a.wcnf', 'bound=none'), "'none'.*a whole number.*bound="),
    (('compile', 'a.wcnf', 'unit=2'), "'2'.*one or reduce for unit="),
    (('compile', 'a.wcnf', 'slack=pair'), "'pair'.*bits, pairs or clauses for slack=.*'pairs'"),
    (('compile', 'a.wcnf', 'order=state'), 'order= is a key of `solve`'),
    (('solve', 'a.wcnf', 'order=nowhere'), 'cannot read nowhere'),
    (('compile', 'a.wcnf', 'rows=2'), 'rows= is a key of the target chimera'),
    (('compile', 'a.wcnf', 'chain=cut'), 'chain= is a key of the target chimera'),
    (('compile', 'a.wcnf', '--target', 'chimera'), 'rows= is missing'),
    (('compile', 'a.wcnf', *GRAPH), 'one of embed=clique and map=FILE: none'),
    (('compile', 'a.wcnf', *GRAPH, 'embed=clique', 'map=state'), 'one of embed=.*both'),
    (('compile', 'a.wcnf', *GRAPH, 'embed=cliqe'), "'cliqe'.*clique for embed=.*'clique'"),
    (('compile', 'a.wcnf', *GRAPH[:3], 'cols=0', 'shore=4', 'embed=clique'), "'0'.*at least 1 for cols="),
    (('compile', 'a.wcnf', *GRAPH[:2], 'rows=two', 'cols=1', 'shore=1'), "'two'.*for rows="),
    (('compile', 'a.wcnf', *GRAPH[:2], 'rows=999', 'cols=999', 'shore=1', 'embed=clique'),
     'a graph of 1996002 qubits.*at most 1048576'),
    (('compile', 'a.wcnf', '--target', 'qbuo'), "'qbuo'.*a target, qubo, ising, chimera or graph.*'qubo'"),
    (('compile', 'a.wcnf', '--target', 'pegasus'), "'pegasus'.*a target, qubo, ising, chimera or graph.*'graph'"),
    (('compile', 'a.wcnf', 'penalty=locl'), "'locl'.*global or local for penalty=.*'local'"),
    (('compile', 'a.wcnf', 'graph=state'), 'graph= is a key of the target graph, and not of qubo'),
    (('compile', 'a.wcnf', 'map=state'), 'map= is a key of the target chimera or graph, and not of qubo'),
    (('compile', 'a.wcnf', '--target', 'graph', 'map=state'), 'graph=FILE and map=FILE: graph= is missing'),
    (('compile', 'a.wcnf', '--target', 'graph', 'graph=state', 'map=state', 'embed=clique'),
     'embed= is a key of the target chimera, and not of graph'),
    (('compile', 'a.wcnf', '--format', 'wncf'), "one of wcnf, .*not 'wncf'.*'wcnf'"),
    (('compile', 'qubo', 'wcnf', 'a.wcnf'), "'wcnf'.*--format wcnf --target qubo"),
    (('compile', 'a.wcnf', 'ising'), "'ising'.*--target ising"),
    (('compile', 'wcnf', 'a.wcnf'), "'wcnf'.*--format wcnf"),
    (('compile', 'state'), 'one of wcnf, .*no ending'),
    (('compile', 'a.cnf'), 'from-cnf'),
    (('compile', '-'), '--format is missing for the standard input'),
    (('decode', '-', '-', '--format', 'opb'), 'the standard input is one file only'),
    (('compile', 'a.wcnf', '-o'), 'a value is missing behind -o'),
    (('compile', 'a.wcnf', '-o', 'nowhere/m'), 'cannot write nowhere/m'),
    (('compile', 'bad.opb'), "bad.opb:2: word: 'x1'.*whole number"),
    (('compile', 'cut.wcnf.gz'), 'cut.wcnf.gz: this is no whole file of gzip'),
)


class InFolder(unittest.TestCase):
    """Tests that run in a folder of their own, with some files."""

    def setUp(self):
        enter_folder(self)
        for name, text in (('a.wcnf', HARD), ('state', '01\n'), ('bad.opb', '* a\nmin: x1 ;\n'),
                           ('a.cnf', 'p cnf 1 0\n'), ('map', '0 0\n1 1\n')):
            Path(name).write_text(text)
        Path('cut.wcnf.gz').write_bytes(gzip.compress(HARD.encode())[:-4])

    def by_program(self, *words):
        """What the program writes."""
        return subprocess.run([program(), *words], stdout=subprocess.PIPE, check=True,
                              universal_newlines=True).stdout

    def wrote(self, *words, given=b'', noted=''):
        """What a command writes, which says this much on the error output."""
        status, out, err = command(*words, given=given)
        self.assertEqual((status, err), (0, noted))
        return out


class Words(unittest.TestCase):
    def test_help(self):
        for words in ('--help',), ('help',), ('-h',):
            status, out, _ = command(*words)
            self.assertEqual(status, 0)
            for name in (*PARTS, 'anneal', 'judge'):
                self.assertIn(f'    {name}', out)
        for words in ('compile', '--help'), ('compile', 'a.wcnf', '-h'), ('help', 'compile'):
            status, out, _ = command(*words)
            self.assertEqual((status, out.split('\n')[0][:28]), (0, 'usage: pbising compile FILE '))
        self.assertNotIn('--order', out)
        self.assertIn('--order', command('solve', '-h')[1])

    def test_one_version(self):
        for word in '--version', '-V':
            self.assertEqual(command(word)[:2], (0, f'pbising {pbising.__version__}\n'))
        changes = (ROOT / 'CHANGELOG.md').read_text(encoding='utf-8')
        self.assertIn(f'## {pbising.__version__}\n', changes)

    @needs_program
    def test_the_program_has_this_version(self):
        told = subprocess.run([find_program(), '--version'], stdout=subprocess.PIPE, check=True)
        self.assertEqual(told.stdout.decode(), f'compile_program {pbising.__version__}\n')

    def test_each_key_is_told(self):
        self.assertEqual(sorted(MEANINGS), sorted(KEYS))
        self.assertLessEqual(set(CHOICES), set(KEYS))

    def test_right_words_have_no_fault(self):
        self.assertIsNone(fault('compile', 'qubo', 'ising', {'bound': '-3', 'high': 'rosenberg'}))
        graph = {'rows': '1', 'cols': '2', 'shore': '4', 'map': 'a', 'dead': 'b', 'chain': 'cut'}
        self.assertIsNone(fault('solve', 'wcnf', 'chimera', {**graph, 'order': 'o'}))
        self.assertIsNone(fault('size', 'wbo', 'graph', {'graph': 'a', 'map': 'b', 'chain': 'choi',
                                                         'penalty': 'local', 'slack': 'clauses'}))


@needs_program
class Slips(InFolder):
    def test_each_is_answered_by_what_is_wanted(self):
        self.assertGreaterEqual(len(SLIPS), 45)
        for words, told in SLIPS:
            with self.subTest(' '.join(words)):
                status, out, err = command(*words)
                self.assertIn(status, (2, 3, 5))
                self.assertEqual((out, err.count('\n')), ('', 1), err)
                self.assertRegex(err, told)

    def test_the_program_refuses_what_the_front_refuses(self):
        for keys in (['hihg=x'], ['high=x'], ['bound=4.5'], ['order=state'], ['rows=2']):
            done = subprocess.run([program(), 'compile', 'wcnf', 'qubo', 'a.wcnf', *keys],
                                  stderr=subprocess.PIPE, check=False)
            self.assertEqual((done.returncode, done.stderr), (2, b'usage: word 5\n'), keys)

    def test_the_status_is_the_programs(self):
        for words, status in ((('compile', 'bad.opb'), 5), (('compile', 'nowhere.opb'), 3),
                              (('decode', 'a.wcnf', 'a.wcnf'), 8), (('compile', 'a.wcnf', 'high=x'), 2),
                              (('compile', 'a.wcnf', *GRAPH, '--map', 'map'), 7)):
            self.assertEqual(command(*words)[0], status, words)


@needs_program
class Answers(InFolder):
    def test_the_output_is_the_programs(self):
        words = ('wcnf', 'qubo', 'a.wcnf')
        for name, files in (('compile', ()), ('size', ()), ('solve', ()), ('decode', ('state',)),
                            ('evaluate', ('state',))):
            self.assertEqual(self.wrote(name, 'a.wcnf', *files), self.by_program(name, *words, *files))
        Path('bits').write_text('01\n')
        self.assertEqual(self.wrote('extend', 'a.wcnf', 'bits'), self.by_program('extend', *words, 'bits'))

    def test_keys_in_each_way(self):
        wanted = self.by_program('compile', 'wcnf', 'ising', 'a.wcnf', 'unit=reduce', 'bound=2')
        for words in (('a.wcnf', '--target', 'ising', '--unit', 'reduce', '--bound', '2'),
                      ('--unit=reduce', 'a.wcnf', 'bound=2', '--target=ising'),
                      ('wcnf', 'ising', 'a.wcnf', 'unit=reduce', '--bound', '2')):
            self.assertEqual(self.wrote('compile', *words), wanted, words)

    def test_standard_input_and_output_files(self):
        wanted = self.by_program('compile', 'wcnf', 'qubo', 'a.wcnf')
        self.assertEqual(self.wrote('compile', '-', '--format', 'wcnf', given=HARD.encode()), wanted)
        for words in ('-o', 'm'), ('--output=m',), ('-om',):
            self.assertEqual(self.wrote('compile', 'a.wcnf', *words), '')
            self.assertEqual(Path('m').read_text(), wanted)
            Path('m').unlink()
        self.assertEqual(command('compile', 'bad.opb', '-o', 'm')[0], 5)
        self.assertFalse(Path('m').exists())

    def test_compressed_files_and_marks(self):
        wanted = self.by_program('compile', 'wcnf', 'qubo', 'a.wcnf')
        for ending, module in ('.gz', gzip), ('.bz2', bz2), ('.xz', lzma):
            Path('b.wcnf' + ending).write_bytes(module.compress(HARD.encode()))
            self.assertEqual(self.wrote('compile', 'b.wcnf' + ending), wanted)
            self.assertEqual(pbising.compile('b.wcnf' + ending).text, wanted)
        Path('b.wcnf').write_bytes(b'\xef\xbb\xbf' + HARD.encode())
        self.assertEqual(self.wrote('compile', 'b.wcnf'), wanted)

    def test_an_order_is_found_where_it_is_needed(self):
        rows = ''.join(f'1 {i} -18 0\n2 -{i} 0\n' for i in range(1, 18)) + '5 18 0\n'
        Path('last.wcnf').write_text(rows)
        status, out, err = command('solve', 'last.wcnf')
        self.assertEqual((status, out[-10:]), (0, 'optimum 5\n'))
        self.assertRegex(err, 'too wide: node 17 has 17 .*looked for\nno node has more than 1 ')
        self.assertEqual(command('solve', 'last.wcnf', '--order', 'auto')[1], out)
        self.assertEqual(pbising.compile('last.wcnf').solve(order='auto').optimum, 5)
        Path('order').write_text('\n'.join(map(str, range(17, -1, -1))))
        self.assertEqual(command('solve', 'last.wcnf', '--order', 'order')[0], 11)

    def test_a_proof_is_found(self):
        self.assertEqual(self.wrote('prove', str(EXAMPLES / 'fees.wcnf')).split('\n')[-2], 'optimum 40')
        command('certificate', '-', '--state', 'least', given=self.wrote('compile', 'a.wcnf').encode())
        lines = command('certificate', '-', given=self.wrote('compile', 'a.wcnf').encode())[1]
        Path('lines').write_text(lines)
        self.assertIn('optimum 0', self.wrote('prove', 'a.wcnf', 'least', 'lines'))

    def test_a_clause_that_runs_over_its_line(self):
        text = b'h 1 2\n3 -1 0\nh 2 0\n'
        told = ('the standard input:1: warning: the clause runs over the end of the line: only a 0 '
                'ends a clause\n')
        out = self.wrote('compile', '-', '--format', 'wcnf', given=text, noted=told)
        self.assertEqual(out, pbising.compile(text.decode(), 'wcnf').text)

    def test_python_without_an_installation(self):
        done = subprocess.run([sys.executable, '-m', 'pbising', 'size', 'a.wcnf'], check=False,
                              stdout=subprocess.PIPE, env={**os.environ, 'PYTHONPATH': str(ROOT / 'python')})
        self.assertEqual(done.stdout.decode(), self.by_program('size', 'wcnf', 'qubo', 'a.wcnf'))


class Warnings(unittest.TestCase):
    def test_lines_without_an_end(self):
        for text, line in (('h 1 2\n3 -1 0\n', 1), ('c x\nh 1 0\n\nh 2 3\n-1\n0\n', 4),
                           ('p wcnf 3 2\n1 1 10\n2 0\n1 3 0\n', 2), ('1 1 0 2\n1 0\n', 1)):
            notes = list(open_clauses('a', text.encode()))
            self.assertEqual([note.split(':')[1] for note in notes], [str(line)], text)
        self.assertIn('as do 1 more', next(open_clauses('a', b'h 1\n2\n0\n')))

    def test_lines_with_one(self):
        for text in ('h 1 2 0\n3 -1 0\n', 'p wcnf 1 1 9\n9 1 0\n', 'h 1 0 \t\r\nh 0\n', 'c 1\n', '',
                     'h 1 2 0\nh 3', 'c a\nc b 1\np wcnf 1 1\n1 1 0'):
            self.assertEqual(list(open_clauses('a', text.encode())), [], text)


if __name__ == '__main__':
    unittest.main()

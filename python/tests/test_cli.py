"""The command: each part once on a good input, and on its nearest bad one."""
import tempfile
import unittest
from pathlib import Path

from helper import CHIMERA, EXAMPLES, QUBO, command, needs_program

import pbising

SOURCE = 'p wcnf 3 1\n2 1 2 3 0\n'


class Commands(unittest.TestCase):
    def setUp(self):
        folder = tempfile.TemporaryDirectory()
        self.addCleanup(folder.cleanup)
        self.folder = Path(folder.name)
        for name, text in (('m.qubo', QUBO), ('m.chimera', CHIMERA), ('s.wcnf', SOURCE),
                           ('bad', 'p cnf 1 1\n'), ('state', '1001\n'), ('short', '10\n')):
            (self.folder / name).write_text(text)

    def run_on(self, *words, given=''):
        """A command whose words that begin with @ are files of the folder."""
        words = [self.folder / word[1:] if str(word).startswith('@') else word for word in words]
        return command(*words, given=given.encode())

    def good(self, output, *words, given=''):
        """A command that writes this."""
        status, out, err = self.run_on(*words, given=given)
        self.assertEqual((status, out), (0, output), err)

    def bad(self, *words, given=''):
        """A command that ends with one line and status 2."""
        status, out, err = self.run_on(*words, given=given)
        self.assertEqual((status, out, err.count('\n'), len(err) > 1), (2, '', 1, True), err)

    def test_words(self):
        self.assertEqual(self.run_on('--help')[0], 0)
        self.assertIn('--sweeps', self.run_on('anneal', '--help')[1])
        for words in ((), ('fly',), ('anneal',), ('anneal', '@m.qubo', '--reads', '0'),
                      ('anneal', '@m.qubo', '--sweeps', '0'), ('anneal', '@m.qubo', '--seed', 'x'),
                      ('judge', 'lp', '@s.wcnf', '@m.qubo', '@state'),
                      ('to-dead', '0', '1', '1', '@state'), ('elimination-order', '@m.qubo', '--most', 'x')):
            self.bad(*words)

    def test_every_command_refuses_what_is_no_file_of_its_kind(self):
        for name in ('anneal', 'to-coo', 'to-qpbo', 'certificate', 'elimination-order', 'widths',
                     'draw', 'info', 'least-state'):
            self.bad(name, '@bad')
            self.bad(name, '@nowhere')
        for name in 'from-coo', 'from-rudy', 'to-map':
            self.bad(name, '@bad')
        for words in (('from-cnf', '@s.wcnf'), ('from-opb', '@nowhere'), ('draw', '@m.qubo'),
                      ('to-state', '@m.qubo', '@short'), ('to-dead', '1', '1', '4', '@bad'),
                      ('draw', '@m.chimera', '--state', '@state'),
                      ('draw', '@m.chimera', '--dead', '@state')):
            self.bad(*words)

    def test_models(self):
        status, out, _ = self.run_on('anneal', '@m.qubo', '--reads', '3', '--sweeps', '20')
        self.assertEqual((status, out.split('\n')[1]), (0, 'energy -6'))
        self.assertEqual(self.run_on('anneal', '@m.qubo', '--reads', '3', '--all')[1].count('\n'), 3)
        self.good('state 0011\nenergy -6\ncost 0\nassignment 001\n', 'least-state', '@m.qubo')
        self.good('widest: node 3 has 3 neighbours, and `solve` takes 16\n', 'widths', '@m.qubo')
        self.assertIn('greatest weight 4', self.run_on('info', '@m.qubo')[1])
        self.assertEqual(sorted(self.run_on('elimination-order', '@m.qubo')[1].split()),
                         ['0', '1', '2', '3'])
        self.bad('elimination-order', '@m.qubo', '--most', '2')
        self.assertIn('</svg>', self.run_on('draw', '@m.chimera')[1])

    def test_certificates(self):
        status, out, _ = self.run_on('certificate', '@m.qubo', '--state', '@least')
        self.assertEqual((status, out.split('\n')[0]), (0, '-6'))
        self.assertEqual(len((self.folder / 'least').read_text()), 5)
        self.assertEqual(self.run_on('certificate', given=QUBO)[1], out)

    def test_states(self):
        answers = '{0: 0, 1: 0, 2: 0, 3: 0}\n1000\nv 1 -2 -3 0\n'
        self.good('1001\n', 'to-state', '@m.qubo', given=answers)
        self.good('0000\n1000\n1001\n', 'to-state', '@m.qubo', '--all', given=answers)
        self.good('100\n', 'to-state', '@m.qubo', '--assignment', given=answers)
        self.good('1001\n', 'to-state', '@m.qubo', '--source', 'wcnf', '@s.wcnf', given=answers)
        self.bad('to-state', '@m.qubo', '--source', 'wcnf', '@bad', given=answers)
        self.bad('to-state', '@m.qubo', '--assignment', given='v 1 -2 0\n')

    def test_exports_and_imports(self):
        self.assertEqual(self.run_on('to-coo', '@m.qubo')[1].count('\n'), 11)
        self.assertEqual(self.run_on('to-qpbo', '@m.qubo')[1].split('\n')[0], '4 10')
        self.good('0 0 4\n1 1\n', 'to-map', '-', given='{0: [0, 4], 1: (1,)}\n')
        self.good('3\n', 'to-dead', '1', '1', '2', '-', given='[0, 1, 2]')
        self.good('p ising 2 0 1\n0 1 3\n', 'from-coo', '-', given='# vartype=SPIN\n0 1 3\n')
        self.good('p qubo 0 2 2 1\n0 0 -1\n1 1 -1\n0 1 2\n', 'from-rudy', '-', given='2 1\n1 2 1\n')
        self.good('min: +1 x1 ;\n', 'from-opb', '-', given='min: +1*x1 ;\n')
        self.good('p wcnf 1 1 2\n1 1 0\n', 'from-cnf', '--soft', '-', given='p cnf 1 1\n1 0\n')

    @needs_program
    def test_judging(self):
        problem, model = EXAMPLES / 'timetable.wcnf', self.folder / 'm'
        model.write_bytes(pbising.compile(problem).request.run('compile'))
        (self.folder / 'wrong').write_text('001110010111\n001100010111\n')
        status, out, _ = self.run_on('judge', 'wcnf', problem, model, '@wrong')
        self.assertEqual(status, 1)
        self.assertIn("keys as the model's\nenergy -127, above the threshold -153\n", out)
        self.assertIn('hard 2 of 18 broken\n  line 20: -4 -5\n', out)
        status, out, _ = self.run_on('judge', 'wcnf', problem, model, '@wrong', '--all')
        self.assertEqual((status, out.split('\n')[-4:-1]),
                         (0, ['best 001100010111', 'cost 1', 'energy -170']))
        status, out, _ = self.run_on('judge', 'wcnf', problem, model, '@wrong', 'high=rosenberg')
        self.assertIn("keys not the model's: with them", out)
        for words in ((problem, model, '@state'), (problem, model, '@wrong', 'high=low'),
                      (problem, model, '@wrong', 'high'), ('@s.wcnf', model, '@wrong'),
                      ('@bad', model, '@wrong'), (problem, '@bad', '@wrong')):
            self.bad('judge', 'wcnf', *words)


if __name__ == '__main__':
    unittest.main()

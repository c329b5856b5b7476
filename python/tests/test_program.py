"""What the package tells of models that the program makes."""
import os
import stat
import tempfile
import unittest
from pathlib import Path
from unittest import mock

from helper import EXAMPLES, needs_program

import pbising
from pbising import (EmbeddingError, LimitError, Model, PbisingError, SourceProblem, ProgramMissing,
                     ProofError, StateError, TextError, UsageError, WidthError)
from pbising.readers import read_problem

PROBLEMS = {'wcnf': 'h 1 2 0\n3 -1 0\n2 -2 0\n', 'opb': 'min: 3 x1 2 x2 ;\n1 x1 1 x2 >= 1 ;\n',
            'wbo': 'soft: ;\n1 x1 1 x2 >= 1 ;\n[3] 1 ~x1 >= 1 ;\n[2] 1 ~x2 >= 1 ;\n',
            'poly': '4\n-1 x\n-2 y\n1 x y\n', 'qubo': 'p qubo 0 2 2 1\n0 0 3\n1 1 2\n0 1 -9\n',
            'ising': 'p ising 2 1 1\n0 0 1\n0 1 2\n'}
OPTIMA = {'wcnf': 2, 'opb': 2, 'wbo': 2, 'poly': 2, 'qubo': -4, 'ising': -3}
GRAPH = {'rows': 2, 'cols': 2, 'shore': 4, 'embed': 'clique'}


@needs_program
class Compiling(unittest.TestCase):
    def test_each_format_to_each_target(self):
        for layout, text in PROBLEMS.items():
            for target, keys in ('qubo', {}), ('ising', {'unit': 'reduce'}), ('chimera', GRAPH):
                with self.subTest(f'{layout} {target}'):
                    model = pbising.compile(text, layout, target, **keys)
                    found = model.solve()
                    self.assertEqual((found.optimum, found.feasible), (OPTIMA[layout], True))
                    self.assertEqual(model.energy(found.state), found.energy)
                    best = model.decode(pbising.anneal(model, reads=5, sweeps=100)).best
                    self.assertEqual((best.cost, best.excess), (OPTIMA[layout], 0))
                    self.assertEqual(model.source.cost(best.values), best.cost)

    def test_a_file_has_its_format_as_its_ending(self):
        model = pbising.compile(EXAMPLES / 'timetable.wcnf')
        self.assertEqual((model.nodes, model.offset, model.threshold), (12, -171, -153))
        with self.assertRaisesRegex(PbisingError, 'the format is one of'):
            pbising.compile(EXAMPLES / 'cut.map')

    def test_dicts_and_labels(self):
        model = pbising.compile(pbising.from_qubo({('a', 'b'): -3, ('a', 'a'): 1}))
        best = model.decode([[1, 1], [0, 1]]).best
        self.assertEqual((best.values, best.cost), ({'a': 1, 'b': 1}, -2))

    def test_faults_of_texts(self):
        for layout, text, line, token in (('opb', 'min: 1 x1 ;\n1 y1 >= 1 ;\n', 2, 'y1'),
                                          ('wcnf', 'p wcnf 1 1\n1 2 0\n', 2, '2')):
            with self.assertRaises(TextError) as caught:
                pbising.compile(text, layout)
            self.assertEqual((caught.exception.line, caught.exception.token), (line, token))

    def test_refusals(self):
        wide = 'p wcnf 1 1\n1 %s 0\n' % ' '.join(['1'] * 3)
        for error, keys in ((UsageError, {'high': 'low'}), (UsageError, {'target': 'pegasus'}),
                            (EmbeddingError, {'target': 'chimera', 'rows': 1, 'cols': 1, 'shore': 1,
                                              'map': {0: [5]}}),
                            (TextError, {'target': 'chimera', 'rows': 1, 'cols': 1, 'shore': 1,
                                         'embed': 'clique', 'dead': '7\n'})):
            with self.assertRaises(error):
                pbising.compile(wide, 'wcnf', **keys)
        with self.assertRaisesRegex(LimitError, 'limit variables 1048577'):
            pbising.compile('p wcnf 1048577 0\n', 'wcnf')

    def test_maps_and_dead_parts(self):
        keys = {'rows': 1, 'cols': 1, 'shore': 2}
        model = pbising.compile(PROBLEMS['poly'], 'poly', 'chimera', map={0: [0], 1: [2]},
                                dead='3\n', **keys)
        self.assertEqual(model.chains, [[0], [2]])
        self.assertEqual(model.decode({0: 1, 2: -1}).best.values, {'x': 1, 'y': 0})

    def test_sizes(self):
        size = pbising.size(EXAMPLES / 'knapsack.opb')
        self.assertEqual((size.nodes, size.couplers, size.variables, size.scale), (8, 28, 4, 1))
        with self.assertRaises(TextError):
            pbising.size('x\n', 'opb')


@needs_program
class Answers(unittest.TestCase):
    def test_extending_an_assignment(self):
        model = pbising.compile(EXAMPLES / 'timetable.wcnf')
        found = model.extend([1, 0, 0, 0, 0, 1, 0, 1, 0])
        self.assertEqual((found.cost, found.energy), (7, -164))
        self.assertEqual(model.decode(found.state).best.assignment, found.assignment)
        with self.assertRaisesRegex(PbisingError, '2 values, and there are 9'):
            model.extend([1, 0])

    def test_proofs(self):
        model = pbising.compile(EXAMPLES / 'fees.wcnf', target='ising')
        found = model.prove()
        self.assertEqual(found.optimum, model.solve().optimum)
        with self.assertRaisesRegex(ProofError, 'above the bound'):
            worse = [1 - bit for bit in found.state]
            model.prove(worse, pbising.certificate(model).text)
        with self.assertRaises(TextError):
            model.prove(found.state, 'x\n')
        with self.assertRaises(StateError):
            model.prove(found.state + [1], '0\n')

    def test_infeasible_problems(self):
        model = pbising.compile('h 1 0\nh -1 0\n', 'wcnf')
        self.assertEqual((model.solve().optimum, model.solve().feasible), (None, False))
        found = model.decode([[0], [1]])
        self.assertEqual((found.feasible, found.best.cost), ([], None))
        self.assertTrue(model.above(found.best.energy))

    def test_a_model_that_is_too_wide(self):
        with self.assertRaisesRegex(WidthError, 'too wide: node 35 has 17 neighbours'):
            pbising.compile(EXAMPLES / 'jobshop.opb').solve()


EVALUATES = '''#!/bin/sh
# A program that has `evaluate`, and tells what it is to tell.
case "$1" in
    compile) printf 'c scale 1\\nc offset 0\\nc threshold 1\\nc unit 1\\nc variables 1\\n'
             printf 'p qubo 0 1 1 0\\n0 0 -1\\n' ;;
    evaluate) printf 'sample 1 cost 0 energy 0\\nsample 2 cost {cost} energy -1\\nbest 2\\n' ;;
    size) printf 'nodes 1\\ncouplers 0\\nscale 1\\noffset 0\\nthreshold 1\\nunit 1\\n'
          printf 'variables 1\\nleast 1\\ngreatest 1\\n' ;;
    *) echo 'usage: word 1' >&2; exit 2 ;;
esac
'''


class Programs(unittest.TestCase):
    def program(self, folder, cost):
        """A small program in place of the real one."""
        path = Path(folder) / 'program'
        path.write_text(EVALUATES.replace('{cost}', cost))
        path.chmod(path.stat().st_mode | stat.S_IXUSR)
        return mock.patch.dict(os.environ, PBISING_PROGRAM=str(path))

    def test_a_program_that_evaluates_has_the_last_word(self):
        with tempfile.TemporaryDirectory() as folder, self.program(folder, '-1'):
            model = pbising.compile('-1 x\n', 'poly')
            found = model.decode([[0], [1]])
            self.assertEqual((found.by, found.best.cost, found.best.values),
                             ('program', -1, {'x': 1}))
            self.assertEqual(pbising.size('-1 x\n', 'poly').greatest, 1)
            with self.assertRaisesRegex(UsageError, "usage: word 1: 'solve'"):
                model.solve()

    def test_other_numbers_than_the_programs_are_refused(self):
        with tempfile.TemporaryDirectory() as folder, self.program(folder, '5'):
            model = pbising.compile('-1 x\n', 'poly')
            with self.assertRaisesRegex(PbisingError, 'the program tells the cost 5'):
                model.decode([[0], [1]])
            with self.assertRaisesRegex(PbisingError, 'the program tells of 2 samples, not of 1'):
                model.decode([[0], [0]])

    def test_a_cost_that_is_too_small_is_refused_with_what_is_broken(self):
        with tempfile.TemporaryDirectory() as folder, self.program(folder, '-9'):
            best = pbising.compile('-1 x\n', 'poly').decode([[0], [1]]).best
            self.assertEqual((best.cost, best.excess), (-9, 8))
            for _ in range(2):
                with self.assertRaisesRegex(PbisingError, 'the program tells the cost -9'):
                    best.broken

    def test_what_is_broken_is_counted_once_and_where_it_is_asked_for(self):
        reading = mock.patch('pbising.sources.read_problem', side_effect=read_problem)
        judging = mock.patch.object(SourceProblem, 'judge', autospec=True, side_effect=SourceProblem.judge)
        counting = mock.patch.object(Model, 'energy', autospec=True, side_effect=Model.energy)
        with tempfile.TemporaryDirectory() as folder, self.program(folder, 'infinite'), \
                reading as read, judging as judge, counting as energy:
            model = pbising.compile('min: -1 x1 ;\n1 x1 <= 0 ;\n', 'opb')
            found = model.decode([[0], [1], [1]])
            self.assertEqual([(one.cost, one.feasible, one.energy, one.excess) for one in found],
                             [(0, True, 0, 0)] + [(None, False, -1, None)] * 2)
            self.assertEqual((found.best.values, found.costs()), ({'x1': 0}, [(0, 1), (None, 2)]))
            self.assertEqual((read.call_count, judge.call_count, energy.call_count), (0, 0, 0))
            self.assertEqual([[part.line for part in one.broken] for one in found], [[], [2], [2]])
            self.assertEqual((found[1].verdict.cost, len(found.broken_lines())), (None, 1))
            self.assertEqual((read.call_count, judge.call_count, energy.call_count), (1, 2, 0))

    def test_a_program_that_is_not_there(self):
        with mock.patch.dict(os.environ, PBISING_PROGRAM='/nowhere'):
            with self.assertRaisesRegex(ProgramMissing, 'PBISING_PROGRAM names /nowhere'):
                pbising.compile('-1 x\n', 'poly')


if __name__ == '__main__':
    unittest.main()

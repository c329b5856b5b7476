"""Broken samples, repaired: all states of models of drawn files of each format."""
import random
import unittest

from drawn import LAYOUTS, problem

from helper import command, enter_folder, needs_local, needs_program, states

import pbising

TRIANGLE = 'min: -1 x1 -1 x2 -1 x3 ;\n1 x1 1 x2 <= 1 ;\n1 x1 1 x3 <= 1 ;\n1 x2 1 x3 <= 1 ;\n'
STUCK = 'min: -1 x1 ;\n1 x1 1 x2 = 1 ;\n1 x1 -1 x2 = 0 ;\n1 x3 >= 1 ;\n'


def is_below(model, one):
    """Whether the cost of a sample lies below its energy."""
    return model.scale * one.cost + model.offset < model.unit * one.energy


@needs_program
class Repaired(unittest.TestCase):
    def check(self, model):
        """Compares each state of a model with what it is repaired to; how many are repaired."""
        every = list(states(model.nodes))
        plain, walked = model.decode(every), model.decode(every, repair=True)
        for before, after in zip(plain, walked):
            told = model.source.text, model.request.values(), before.state
            self.assertEqual((after.state, after.energy), (before.state, before.energy))
            if not after.repaired:
                self.assertEqual((after.cost, after.assignment), (before.cost, before.assignment))
                self.assertTrue(before.feasible or after.stuck or model.above(before.energy), told)
                continue
            self.assertEqual((before.cost, after.sampled), (None, before.assignment))
            self.assertEqual(after.cost, model.source.cost(after.assignment), told)
            self.assertTrue(is_below(model, after) and after.excess > 0, told)
        return sum(one.repaired for one in walked)

    def test_all_states_of_drawn_files(self):
        draw, walked = random.Random(5), 0
        for layout in LAYOUTS:
            for _ in range(8):
                keys = {'slack': draw.choice(('bits', 'pairs')),
                        'bound': draw.choice((None, None, draw.randint(-3, 9)))}
                model = pbising.compile(problem(layout, draw), layout,
                                        draw.choice(('qubo', 'ising')), **keys)
                walked += self.check(model) if model.nodes <= 8 else 0
        self.assertGreater(walked, 100)

    @needs_local()
    def test_all_states_with_penalties_of_parts(self):
        draw, walked = random.Random(6), 0
        for layout in LAYOUTS:
            for _ in range(8):
                keys = {'slack': draw.choice(('pairs', 'clauses')), 'penalty': 'local',
                        'bound': draw.choice((None, None, draw.randint(-3, 9))),
                        'unit': draw.choice(('one', 'reduce'))}
                model = pbising.compile(problem(layout, draw), layout,
                                        draw.choice(('qubo', 'ising')), **keys)
                walked += self.check(model) if model.nodes <= 8 else 0
        self.assertGreater(walked, 50)

    def test_broken_chains_are_repaired_too(self):
        model = pbising.compile(TRIANGLE, 'opb', 'chimera', slack='pairs', rows=2, cols=2, shore=2,
                                embed='clique')
        used, samples = model.used(), []
        for bits in states(len(used)):
            samples.append([dict(zip(used, bits)).get(qubit, 0) for qubit in range(model.nodes)])
        walked = model.decode(samples, repair=True)
        self.assertTrue(all(one.feasible for one in walked))
        self.assertTrue(all(is_below(model, one) for one in walked if one.repaired))

    def test_what_is_told(self):
        model = pbising.compile(STUCK, 'opb')
        decoding = model.decode([[1, 0, 0], [1, 1, 1], [1, 0, 1]], repair=True)
        self.assertEqual([one.stuck for one in decoding], [[3], [2], [3]])
        self.assertIn('samples 3, feasible 0, repaired 0, beyond repair 3', str(decoding))
        model = pbising.compile(TRIANGLE, 'opb', slack='pairs')
        decoding = model.decode([[1, 1, 0], [0, 0, 1]], repair=True)
        self.assertIn('samples 2, feasible 2, repaired 1, beyond repair 0', str(decoding))
        self.assertEqual([one.broken for one in decoding], [[], []])
        self.assertEqual(decoding.best.cost, -1)


@needs_program
class Judged(unittest.TestCase):
    def setUp(self):
        enter_folder(self)

    def judge(self, text, layout, bits, *keys):
        """The last lines of a judgement of a state."""
        source = pbising.Source(text.encode(), layout)
        source.write('a')
        pbising.compile(source, **dict(key.split('=') for key in keys)).write('m')
        pbising.Source(f'{bits}\n'.encode(), layout).write('s')
        _, out, err = command('judge', layout, 'a', 'm', 's', *keys)
        self.assertEqual(err, '')
        self.assertIn("keys as the model's", out)
        return out.split('\n')[-3:-1]

    @needs_local()
    def test_what_penalties_of_parts_promise(self):
        keys = 'slack=pairs', 'penalty=local'
        self.assertEqual(self.judge(TRIANGLE, 'opb', '110', *keys),
                         ['cost infinite', 'repaired, it is 010 of cost -1'])
        self.assertEqual(self.judge(STUCK, 'opb', '100', 'penalty=local'),
                         ['cost infinite', 'no repair: these have no penalty of their own: line 3'])
        self.assertEqual(self.judge('soft: ;\n[10] 1 x1 >= 1 ;\n', 'wbo', '000', 'penalty=local')[1],
                         'the state is 9 below what its assignment reaches: a soft constraint fails '
                         'that it does not pay for, as penalty=local allows')


if __name__ == '__main__':
    unittest.main()

"""The annealer: the same samples with and without numpy, and what it shows."""
import importlib.util
import io
import random
import unittest
from unittest import mock

from helper import CHIMERA, EXAMPLES, ISING, QUBO, needs_program, states

import pbising
from pbising import anneal, parse
from pbising import annealing
from pbising.models import Model
from pbising.progress import Progress

NUMPY = importlib.util.find_spec('numpy') is not None
needs_numpy = unittest.skipUnless(NUMPY, 'numpy is not installed')


def drawn(nodes, couplers, seed, kind='qubo', most=9):
    """A model of random weights."""
    draw = random.Random(seed)
    every = [(i, j) for i in range(nodes) for j in range(i + 1, nodes)]
    pairs = sorted(draw.sample(every, couplers))
    fields = {node: draw.randint(-most, most) for node in range(nodes) if draw.random() < 0.9}
    return Model(kind, nodes, fields, [i for i, _ in pairs], [j for _, j in pairs],
                 [draw.randint(-most, most) for _ in pairs])


def both(model, reads=2, sweeps=12):
    """The samples of the two forms."""
    from pbising.annealing_arrays import ArrayWalk
    seeds = list(range(reads))
    return [walk(model).run(seeds, sweeps, Progress('', 1, io.StringIO()))
            for walk in (annealing.Walk, ArrayWalk)]


@needs_numpy
class Forms(unittest.TestCase):
    def test_small_models(self):
        for model in [parse(text.encode()) for text in (QUBO, ISING, CHIMERA)]:
            plain, arrays = both(model, 5, 30)
            self.assertEqual(plain, arrays)

    def test_drawn_models(self):
        for kind in 'qubo', 'ising':
            for nodes, couplers in (1, 0), (20, 0), (20, 40), (40, 780), (300, 500), (300, 3000):
                for most in 1, 9, 10 ** 12:
                    plain, arrays = both(drawn(nodes, couplers, nodes, kind, most))
                    self.assertEqual(plain, arrays, (kind, nodes, couplers, most))

    def test_colours_of_many_nodes(self):
        path = Model('qubo', 500, {}, list(range(499)), list(range(1, 500)), [1, -2] * 249 + [3])
        plain, arrays = both(path)
        self.assertEqual(plain, arrays)

    @needs_program
    def test_chains(self):
        for keys in {'rows': 2, 'cols': 2, 'shore': 2}, {'rows': 3, 'cols': 3, 'shore': 4}:
            model = pbising.compile(EXAMPLES / 'cut.poly', target='chimera', embed='clique', **keys)
            plain, arrays = both(model, 4, 30)
            self.assertEqual(plain, arrays)

    def test_which_form_is_taken(self):
        self.assertIsInstance(annealing.walk_of(drawn(10, 20, 1)), annealing.Walk)
        large, wide = drawn(100, 2000, 1), drawn(100, 2000, 1, most=10 ** 14)
        self.assertEqual(type(annealing.walk_of(large)).__name__, 'ArrayWalk')
        self.assertIsInstance(annealing.walk_of(wide), annealing.Walk)
        with mock.patch.dict('sys.modules', {'pbising.annealing_arrays': None}):
            self.assertIsInstance(annealing.walk_of(large), annealing.Walk)


class Samples(unittest.TestCase):
    def test_no_move_lowers_the_energy_of_a_sample(self):
        for seed in range(4):
            model = drawn(12, 30, seed)
            for state in anneal(model, 3, 5, seed):
                for node in range(12):
                    other = [bit ^ (at == node) for at, bit in enumerate(state)]
                    self.assertGreaterEqual(model.energy(other), model.energy(state))

    def test_least_states_of_drawn_models(self):
        for seed in range(6):
            model = drawn(10, 25, seed, 'ising')
            least = min(map(model.energy, states(10)))
            self.assertEqual(min(map(model.energy, anneal(model, 5, 100))), least)

    def test_seeds(self):
        model = drawn(60, 300, 1)
        self.assertEqual(anneal(model, 2, 5, 7), anneal(model, 2, 5, 7))
        self.assertNotEqual(anneal(model, 2, 5, 7), anneal(model, 2, 5, 8))
        self.assertEqual(anneal(model, 2, 5, 7)[0], anneal(model, 1, 5, 7)[0])
        self.assertEqual(len(anneal(model, 3, 5, None)), 3)

    def test_nodes_without_rows_stay_0(self):
        model = Model('qubo', 5, {1: -1}, [], [], [])
        self.assertEqual(anneal(model, 2, 3), [[0, 1, 0, 0, 0]] * 2)
        self.assertEqual(anneal(Model('qubo', 0, {}, [], [], []), 1, 1), [[]])


class Terminal(io.StringIO):
    """An output that is a terminal."""

    def isatty(self):
        return True


class Shown(unittest.TestCase):
    def test_a_terminal_is_told(self):
        clock = iter(range(100))
        with mock.patch('time.monotonic', lambda: next(clock)):
            stream = Terminal()
            with Progress('anneal', 4, stream) as progress:
                for least in 5, 3, 4, 9:
                    progress.step(1, least)
        lines = [line.strip() for line in stream.getvalue().split('\r')]
        self.assertEqual(lines[1:5], [f'anneal: {part} %, least energy {least}' for part, least
                                      in ((25, 5), (50, 3), (75, 3), (100, 3))])
        self.assertEqual(lines[5:], ['', ''])

    def test_no_other_output_is(self):
        stream = io.StringIO()
        with Progress('anneal', 1, stream) as progress:
            progress.next = 0
            progress.step(1, 0)
        self.assertEqual(stream.getvalue(), '')

    def test_short_work_is_not_told(self):
        stream = Terminal()
        with mock.patch('sys.stderr', stream):
            anneal(parse(QUBO.encode()), 2, 5)
        self.assertEqual(stream.getvalue(), '')


if __name__ == '__main__':
    unittest.main()

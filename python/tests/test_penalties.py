"""Penalties of parts: what they are, that they are enough, and that one smaller is not."""
import random
import unittest

from drawn import problem

from helper import states

from pbising.parts import compiled_of
from pbising.penalties import Walk
from pbising.readers import read_problem

TRIANGLE = 'min: -1 x1 -1 x2 -1 x3 ;\n1 x1 1 x2 <= 1 ;\n1 x1 1 x3 <= 1 ;\n1 x2 1 x3 <= 1 ;\n'
COVER = 'min: 5 x1 2 x2 3 x3 ;\n1 x1 1 x2 1 x3 >= 1 ;\n'
PROJECTS = ('min: -9 x1 2 x2 1 x3 4 x4 ;\n-1 x1 1 x2 >= 0 ;\n-1 x2 1 x3 >= 0 ;\n'
            '-1 x3 1 x4 >= 0 ;\n')
FOUND = (
    ('opb', TRIANGLE, {}, 4, [2, 2, 2]),
    ('opb', TRIANGLE, {'slack': 'pairs'}, 4, [2, 2, 2]),
    ('opb', COVER, {}, 11, [3]),
    ('opb', COVER, {'slack': 'clauses', 'bound': '4'}, 5, [3]),
    ('opb', COVER, {'bound': '1'}, 2, [None]),
    ('opb', PROJECTS, {'slack': 'pairs'}, 17, [10, 7, 5]),
    ('opb', 'min: 4 x2 ;\n1 x1 1 x2 >= 1 ;\n-1 x1 >= 0 ;\n', {'slack': 'pairs'}, 5, [None, None]),
    ('opb', 'min: 5 x1 2 x2 3 x3 ;\n1 x1 1 x2 1 x3 = 1 ;\n', {}, 11, [3]),
    ('opb', 'min: 1 x1 5 x2 ;\n1 x1 1 x2 = 1 ;\n1 x1 -1 x3 >= 0 ;\n', {}, 7, [2, 1]),
    ('opb', 'min: 9 x1 ;\n1 x1 1 x2 = 1 ;\n1 x1 1 x2 = 1 ;\n', {}, 10, [None, None]),
    ('opb', 'min: 9 x1 ;\n2 x1 1 x2 = 2 ;\n', {}, 10, [None]),
    ('opb', 'min: 9 x1 ;\n1 x1 >= 2 ;\n1 x1 >= 0 ;\n', {}, 10, [None, 1]),
    ('wcnf', 'p wcnf 2 4 9\n9 1 0\n9 -1 2 0\n5 -1 0\n2 -2 0\n', {}, 8, [None, 3]),
    ('wbo', 'soft: ;\n[10] 1 x1 >= 1 ;\n', {}, 11, [1]),
    ('wbo', 'soft: 4 ;\n[2] 1 x1 >= 1 ;\n[3] 1 x2 >= 1 ;\n', {}, 6, [1, 1, 2]),
    ('wbo', 'soft: 4 ;\n[2] 1 x1 >= 1 ;\n[3] 1 x2 >= 1 ;\n', {'slack': 'clauses'}, 4, [1, 1]),
)
KEYS = ({}, {'slack': 'pairs'}, {'slack': 'clauses'}, {'bound': '3'},
        {'slack': 'clauses', 'bound': '0'})


def compiled(layout, text, keys):
    """The problem that a text is compiled to."""
    return compiled_of(read_problem(layout, text.encode()), keys)


class Rule(unittest.TestCase):
    def test_penalties_of_files(self):
        for layout, text, keys, most, own in FOUND:
            with self.subTest(text, keys=keys):
                walk = Walk(compiled(layout, text, keys))
                self.assertEqual((walk.most, walk.own), (most, own))

    def test_the_ninth_round_is_not_made(self):
        rows = [f'99 -{at} {at + 1} 0' for at in range(1, 10)]
        text = '\n'.join(['p wcnf 11 11 99', '99 1 0', *rows, '50 -11 0']) + '\n'
        self.assertEqual(Walk(compiled('wcnf', text, {})).own, [None, None, *range(8, 0, -1)])

    def test_covers_and_conflicts_are_clauses(self):
        text = '1 x1 1 x2 1 x3 >= 1 ;\n1 x1 1 x2 <= 1 ;\n2 x1 1 x2 1 x3 >= 2 ;\n'
        for slack, bounds in ('bits', [1, -1, 2]), ('pairs', [1, 1, 2]), ('clauses', [1, 1, 2]):
            made = compiled('opb', text, {'slack': slack})
            self.assertEqual([part.bound for part in made.hard], bounds)
        self.assertEqual(made.hard[1].terms, [(1, (-1,)), (1, (-2,))])


class Walks(unittest.TestCase):
    def drawn(self, count=60):
        """Walks of drawn problems that have hard parts."""
        draw = random.Random(7)
        for layout in 'wcnf', 'opb', 'wbo':
            for _ in range(count):
                yield Walk(compiled(layout, problem(layout, draw), draw.choice(KEYS)))

    def test_a_walk_ends_below_where_it_begins(self):
        walked = stayed = 0
        for walk in self.drawn():
            for bits in states(walk.problem.variables):
                if walk.stuck(bits):
                    stayed += 1
                    continue
                end = walk.run(bits)
                self.assertFalse(walk.broken)
                if end == bits:
                    continue
                self.assertLess(walk.energy(end), walk.energy(bits))
                walked += 1
        self.assertGreater(min(walked, stayed), 400)

    def test_one_less_is_not_enough(self):
        short = 0
        for walk in self.drawn():
            every = list(states(walk.problem.variables))
            self.assertTrue(self.repaired(walk, every))
            for at, penalty in enumerate(walk.own):
                walk.own[at] = penalty and penalty - 1
                short += penalty is not None and not self.repaired(walk, every)
                walk.own[at] = penalty
        self.assertGreater(short, 10)

    def repaired(self, walk, every):
        """Whether each assignment that breaks no part of the penalty of all, but some other, lies
        above one that breaks none."""
        energies = [(walk.energy(bits), bool(walk.broken), bool(walk.stuck(bits))) for bits in every]
        least = min((energy for energy, broken, _ in energies if not broken), default=None)
        return all(least is not None and least < energy
                   for energy, broken, stuck in energies if broken and not stuck)


if __name__ == '__main__':
    unittest.main()

"""Samples, and what they decode to by the package's own arithmetic."""
import unittest
from types import SimpleNamespace

from helper import CHIMERA, QUBO, Array

from pbising import PbisingError, Source, parse
from pbising.decoding import Decoding, decoded
from pbising.samples import first_state, states_of, text_samples

BITS = [1, 0, 0, 1]
SOURCE = Source(b'p wcnf 3 1\n2 1 2 3 0\n', 'wcnf')


class Forms(unittest.TestCase):
    def setUp(self):
        self.model = parse(QUBO.encode())

    def bits(self, samples):
        return [sample.state for sample in states_of(self.model, samples)]

    def test_one_sample(self):
        for sample in (BITS, (True, False, False, True), [1, -1, -1, 1], [1.0, 0.0, 0.0, 1.0],
                       {0: 1, 1: 0, 2: 0, 3: 1}, {'0': 1, '1': -1, '2': -1, '3': 1},
                       Array([1, -1, -1, 1]), '1001', '+--+', ['1', '0', '0', '1']):
            self.assertEqual(self.bits(sample), [BITS], sample)

    def test_many_samples(self):
        for samples in ([BITS, BITS], Array([BITS, BITS]), [Array(BITS), '1001'], iter([BITS] * 2),
                        [dict(enumerate(BITS))] * 2, '1001\n1 0 0 1\n'):
            self.assertEqual(self.bits(samples), [BITS, BITS], samples)

    def test_a_sample_set_of_dimod(self):
        record = SimpleNamespace(sample=Array([[1, 0, 0, 1]]), num_occurrences=Array([7]))
        found = states_of(self.model, SimpleNamespace(record=record, variables=[3, 1, 2, 0]))
        self.assertEqual(found, [(BITS, 7)])

    def test_samples_that_do_not_fit(self):
        for sample, text in (([1, 0, 0], 'it has 3 values'), ({0: 1}, 'nothing of node 1'),
                             ({'a': 1}, "no node 'a'"), ({4: 1}, 'no node 4'),
                             ([1, 0, 0, 2], '2 is no bit'), ([], 'no sample')):
            with self.assertRaisesRegex(PbisingError, text):
                self.bits(sample)

    def test_samples_of_a_graph_name_what_has_weights(self):
        model = parse(CHIMERA.encode())
        wanted = [1, 0, 0, 0, 1, 0, 0, 0]
        for sample in {0: 1, 4: 1}, [1, 1], wanted:
            self.assertEqual(states_of(model, sample)[0].state, wanted)


class Texts(unittest.TestCase):
    def test_what_solvers_write(self):
        model = parse(QUBO.encode())
        table = '   0  1  2  3 energy num_oc.\n0  1  0  0  1   -6.0       1\n'
        for text in ('{0: 1, 1: 0, 2: 0, 3: 1}', '[1 0 0 1]', '[np.int8(1), 0, 0, 1]',
                     'state 1001', '+--+', ' 1. -1. -1. 1.', table):
            found = [known if isinstance(known, list) else [known[node] for node in range(4)]
                     for known in text_samples(model, text)]
            self.assertEqual(found, [BITS], text)
        self.assertEqual(list(text_samples(model, 'v 1 -2\nv -3 0\nv x1 ~x2\n')),
                         [{0: 1, 1: 0, 2: 0}, {0: 1, 1: 0}])
        with self.assertRaisesRegex(PbisingError, '4 is no literal'):
            list(text_samples(model, 'v 4 0'))

    def test_the_first_state_of_a_text(self):
        self.assertEqual(first_state('c 0101\n0 1\n +--+ \r\n0000', 4), BITS)
        with self.assertRaisesRegex(PbisingError, 'no state of 4 characters'):
            first_state('01\n', 4)


class Decoded(unittest.TestCase):
    def setUp(self):
        self.model = parse(QUBO.encode())

    def test_costs_and_what_breaks(self):
        samples = states_of(self.model, [[0, 0, 0, 0], [1, 0, 0, 0], BITS, [0, 0, 0, 0]])
        found = Decoding(decoded(self.model, SOURCE, samples), 0, 'package')
        self.assertEqual([(one.cost, one.energy, one.excess) for one in found],
                         [(2, 0, 4), (0, -4, 2), (0, -6, 0), (2, 0, 4)])
        self.assertEqual(found.best.state, BITS)
        self.assertEqual(found.best.values, {1: 1, 2: 0, 3: 0})
        self.assertEqual(found[0].broken, [(2, 2, '1 2 3')])
        self.assertEqual((found.costs(), len(found.feasible)), ([(0, 2), (2, 2)], 4))
        self.assertIn('broken in 50 %: line 2, weight 2', str(found))

    def test_the_least_energy_is_not_the_best(self):
        source = Source(b'h 1 0\nh -2 0\n', 'wcnf')
        self.model.variables = 2
        samples = states_of(self.model, [[1, 1, 0, 0], [1, 0, 0, 0]])
        found = Decoding(decoded(self.model, source, samples), 0, 'package')
        self.assertEqual((found[0].energy, found[0].cost, found[0].feasible), (-6, None, False))
        self.assertEqual(found.best.state, [1, 0, 0, 0])
        self.assertEqual(found.costs(), [(0, 1), (None, 1)])

    def test_chain_breaks(self):
        model = parse(CHIMERA.encode())
        source = Source(b'p wcnf 1 1\n1 1 0\n', 'wcnf')
        found = Decoding(decoded(model, source, states_of(model, [[1, 0], [1, 1]])), 1, 'package')
        self.assertEqual([one.broken_chains for one in found], [[0], []])
        self.assertEqual(found.chain_break_fraction(), 0.5)

    def test_assignments_by_name(self):
        self.assertEqual(SOURCE.cost({1: 0, 2: 0, 3: 0}), 2)
        self.assertEqual(SOURCE.cost([-1, -1, 1]), 0)
        for assignment, text in (({1: 0}, 'says nothing of 2'), ([1], 'has 1 values')):
            with self.assertRaisesRegex(PbisingError, text):
                SOURCE.cost(assignment)


if __name__ == '__main__':
    unittest.main()

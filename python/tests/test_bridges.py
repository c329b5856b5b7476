"""Labels to the end: models and samples of dimod (a stand-in, where it is not there), samples by
labels, fractions, and the text of a model."""
import pickle
import random
import sys
import tempfile
import unittest
from fractions import Fraction
from itertools import product
from pathlib import Path
from unittest import mock

from helper import CHIMERA, EXAMPLES, QUBO, needs_program, states
from standin import (BinaryQuadraticModel, ConstrainedQuadraticModel, ExactSolver, SampleSet,
                     dimod)

import pbising
from pbising import PbisingError, from_bqm, from_cqm, from_qubo, parse, scaled

KNAPSACK = [({'tent': 4, 'stove': 3, 'food': 5, 'lamp': 2}, '<=', 9)]
WORTH = {'tent': -7, 'stove': -4, 'food': -8, 'lamp': -3}
GRAPH = {'target': 'chimera', 'rows': 2, 'cols': 2, 'shore': 4, 'embed': 'clique'}


class WithDimod(unittest.TestCase):
    """Tests with the stand-in in place of dimod."""

    def setUp(self):
        patch = mock.patch.dict(sys.modules, dimod=dimod)
        patch.start()
        self.addCleanup(patch.stop)

    def same_costs(self, source, energy):
        """Compares the costs of all assignments with energies."""
        names = source.names()
        low = -1 if source.format == 'ising' or energy.spins else 0
        for values in product((low, 1), repeat=len(names)):
            sample = dict(zip(names, values))
            self.assertEqual(source.cost(sample), energy(sample), sample)


class Energy:
    """The energy of a model of dimod."""

    def __init__(self, bqm):
        self.bqm, self.spins = bqm, bqm.vartype.name == 'SPIN'

    def __call__(self, sample):
        return self.bqm.energy(sample)


class Models(WithDimod):
    def drawn(self, draw, kind):
        """A random model over labels."""
        labels = draw.sample(['a', 'b', ('c', 1), 7, 'x y'], 4)
        linear = {label: draw.randint(-3, 3) for label in labels}
        quadratic = {(u, v): draw.choice((-2, 1, 3)) for u, v in zip(labels, labels[1:])}
        return BinaryQuadraticModel(linear, quadratic, draw.choice((0, 5, -2)), kind)

    def test_models_of_dimod(self):
        draw = random.Random(1)
        for _ in range(40):
            for kind in 'BINARY', 'SPIN':
                bqm = self.drawn(draw, kind)
                self.same_costs(from_bqm(bqm), Energy(bqm))
            bqm = self.drawn(draw, 'BINARY')
            self.same_costs(from_qubo(*bqm.to_qubo()), Energy(bqm))

    def test_fractions_are_refused_with_what_helps(self):
        with self.assertRaisesRegex(PbisingError, '0.5 is no whole number: .* as `scaled` does'):
            from_bqm(BinaryQuadraticModel({'a': 0.5}, {}, 0, 'BINARY'))
        with self.assertRaisesRegex(PbisingError, 'a dict is no binary quadratic model'):
            from_bqm({})

    def test_labels_of_nodes(self):
        model = parse(QUBO.encode())
        self.assertEqual(model.labels(), ['x1', 'x2', 'x3', 'node 3'])
        bqm = model.to_bqm(labels=True)
        self.assertEqual(bqm.variables, model.labels())
        self.assertEqual(bqm.energy(dict(zip(model.labels(), (1, 0, 0, 1)))), 0)
        self.assertEqual(model.to_bqm().variables, [0, 1, 2, 3])
        with self.assertRaisesRegex(PbisingError, 'qubits, which have no labels'):
            parse(CHIMERA.encode()).to_bqm(labels=True)

    def test_both_vartypes_have_the_energy_of_costs(self):
        for text in QUBO, QUBO.replace('qubo 0', 'ising'):
            model = parse(text.encode())
            bqm = model.to_bqm(as_cost=True, labels=True)
            low = 0 if model.kind == 'qubo' else -1
            for bits in states(4):
                sample = dict(zip(model.labels(), (1 if bit else low for bit in bits)))
                wanted = Fraction(model.unit * model.energy(bits) - model.offset, model.scale)
                self.assertAlmostEqual(bqm.energy(sample), float(wanted))


class Constrained(WithDimod):
    def model(self):
        """A model of three variables."""
        cqm = ConstrainedQuadraticModel(
            BinaryQuadraticModel({'a': -2, 'b': 1}, {('a', 'b'): 3}, 4, 'BINARY'))
        cqm.add('least', BinaryQuadraticModel({'a': 1, 'b': 1, 'c': 1}, {}, 1, 'BINARY'), '>=', 3)
        cqm.add('both', BinaryQuadraticModel({'a': 1}, {('b', 'c'): 1}, 0, 'BINARY'), '<=', 1)
        cqm.add('same', BinaryQuadraticModel({'a': 1, 'c': -1}, {}, 0, 'BINARY'), '==', 0)
        return cqm

    def test_constraints_and_an_objective(self):
        source = from_cqm(self.model())
        for a, b, c in states(3):
            kept = a + b + c + 1 >= 3 and a + b * c <= 1 and a == c
            self.assertEqual(source.cost({'a': a, 'b': b, 'c': c}),
                             -2 * a + b + 3 * a * b + 4 if kept else None)

    def test_what_is_not_taken(self):
        cqm = self.model()
        cqm.vartypes['c'] = 'INTEGER'
        with self.assertRaisesRegex(PbisingError, "the variable 'c' is INTEGER"):
            from_cqm(cqm)
        cqm = self.model()
        cqm.constraints['both'].lhs.is_soft = lambda: True
        with self.assertRaisesRegex(PbisingError, "the constraint 'both' is soft"):
            from_cqm(cqm)
        with self.assertRaisesRegex(PbisingError, 'is no constrained quadratic model'):
            from_cqm(BinaryQuadraticModel({}, {}, 0, 'BINARY'))

    @needs_program
    def test_the_optimum_by_labels(self):
        answer = pbising.compile(from_cqm(self.model())).solve()
        self.assertEqual((answer.optimum, answer.values), (2, {'a': 1, 'b': 0, 'c': 1}))


@needs_program
class Labels(WithDimod):
    def setUp(self):
        super().setUp()
        self.model = pbising.compile(pbising.from_constraints(KNAPSACK, WORTH))

    def test_a_round_by_labels(self):
        found = ExactSolver().sample(self.model.to_bqm(labels=True))
        self.assertIn('tent', found.variables)
        decoding = self.model.decode(found)
        self.assertEqual((len(decoding), decoding.best.cost), (2 ** self.model.nodes, -15))
        self.assertEqual(decoding.best.values, {'tent': 1, 'stove': 0, 'food': 1, 'lamp': 0})
        self.assertEqual([one.energy for one in decoding],
                         [self.model.energy(one.state) for one in decoding])

    def test_a_round_by_nodes(self):
        found = ExactSolver().sample(self.model.to_bqm())
        self.assertEqual(self.model.decode(found).best.cost, -15)

    def test_an_assignment_has_the_state_of_extend(self):
        values = {'food': 1, 'tent': 1, 'lamp': 0, 'stove': 0}
        best = self.model.decode(values).best
        self.assertEqual((best.cost, best.excess, best.values), (-15, 0, values))
        self.assertEqual(best.state, self.model.extend(values).state)
        on_graph = pbising.compile(self.model.source, **{**GRAPH, 'rows': 3, 'cols': 3})
        self.assertEqual(on_graph.decode(values).best.state, on_graph.extend(values).state)

    def test_labels_that_are_missing_or_unknown(self):
        for sample, told in (({'tent': 1}, 'says nothing of node'), ({'tnet': 1}, "no node 'tnet'"),
                             (7, '7 is no sample'), ([7] * 8, '7 is no bit'), ([None, 1], 'None is no ')):
            with self.assertRaisesRegex(PbisingError, told):
                self.model.decode(sample)

    def test_numbers_as_labels(self):
        source = from_qubo({('1', '0'): 3, ('0', '0'): -2, ('1', '1'): -1})
        best = pbising.compile(source).decode([{'0': 1, '1': 0}, {'0': 0, '1': 1}])
        self.assertEqual([one.cost for one in best], [-2, -1])
        source = from_qubo({(5, 1): 3, (1, 1): -2})
        self.assertEqual(pbising.compile(source).decode({1: 1, 5: 0}).best.cost, -2)
        self.assertEqual(pbising.compile(source).decode({0: 1, 1: 0}).best.cost, 0)

    def test_labels_of_other_nodes_are_no_variables(self):
        source = pbising.from_polynomial({('node 7', 'b', 'c'): -3, ('b',): 1})
        labels = pbising.compile(source).labels()
        self.assertEqual((labels[:3], len(set(labels))), (['node 7', 'b', 'c'], len(labels)))
        self.assertTrue(all(label.startswith('_node ') for label in labels[3:]))

    def test_sample_sets_of_costs(self):
        samples = [{'tent': 1, 'stove': 1, 'food': 1, 'lamp': 1}, {'tent': 1, 'stove': 0, 'food': 1, 'lamp': 0}]
        found = self.model.decode(samples).to_sampleset()
        self.assertIsInstance(found, SampleSet)
        self.assertEqual((found.first.energy, found.first.sample), (-15, samples[1]))
        self.assertEqual(found.vectors['energy'][0], float('inf'))
        self.assertEqual((found.vectors['is_feasible'], found.vectors['num_occurrences']),
                         ([False, True], [1, 1]))
        self.assertEqual([one.cost for one in self.model.decode(found)], [None, -15])


class Fractions(unittest.TestCase):
    def test_a_factor_and_an_error(self):
        found = scaled({('a', 'b'): 0.25, ('a', 'a'): Fraction(1, 3), ('b', 'b'): -2}, 100)
        self.assertEqual((found.weights, found.times), ({('a', 'b'): 25, ('a', 'a'): 33, ('b', 'b'): -200}, 100))
        self.assertAlmostEqual(found.error, 1 / 300)
        self.assertEqual(scaled([0.5, [1.5, 2]], 2), ([1, [3, 4]], 2, 0.0))
        self.assertEqual(scaled([0.1], 10).error, float(abs(Fraction(0.1) - Fraction(1, 10))))

    def test_the_error_holds_for_each_assignment(self):
        draw = random.Random(3)
        for _ in range(30):
            weights = {(u, v): draw.uniform(-2, 2) for u in 'abc' for v in 'abc' if u <= v}
            found = scaled(weights, draw.choice((3, 10, 0.5, Fraction(7, 2))))
            source = from_qubo(found.weights)
            for bits in states(3):
                values = dict(zip('abc', bits))
                wanted = sum(w * values[u] * values[v] for (u, v), w in weights.items())
                off = abs(source.cost(values) / float(found.times) - wanted)
                self.assertLessEqual(off, found.error + 1e-9)

    def test_what_is_no_factor_and_no_number(self):
        for weights, times, told in (({'a': 'x'}, 2, "a: 'x' is no number"), ({'a': 1}, 0, 'not above 0'),
                                     ({'a': float('nan')}, 2, 'nan is no number'),
                                     ([1], None, 'the factor: None')):
            with self.assertRaisesRegex(PbisingError, told):
                scaled(weights, times)


@needs_program
class Texts(unittest.TestCase):
    def test_the_text_of_a_model_to_the_byte(self):
        model = pbising.compile(EXAMPLES / 'timetable.wcnf')
        with tempfile.TemporaryDirectory() as folder:
            name = Path(folder) / 'm.qubo'
            model.write(name)
            self.assertEqual(name.read_bytes(), model.request.run('compile'))
            loaded = pbising.load(name)
        self.assertEqual((loaded.text, loaded.weights()), (model.text, model.weights()))
        self.assertEqual(pickle.loads(pickle.dumps(model)).text, model.text)
        with self.assertRaisesRegex(PbisingError, 'cannot write nowhere/m: No such'):
            model.write('nowhere/m')


if __name__ == '__main__':
    unittest.main()

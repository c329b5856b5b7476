"""Models: reading, energies, dicts, annealing, least states."""
import unittest
from fractions import Fraction

from helper import CHIMERA, GRAPH, ISING, QUBO, command, states

from pbising import PbisingError, TextError, anneal, completed, least_state, load, parse
from pbising.exports import qpbo_notes, to_coo, to_qpbo


class Reading(unittest.TestCase):
    def test_figures_and_rows(self):
        model = parse(QUBO)
        self.assertEqual((model.kind, model.nodes, model.couplers, model.offset, model.variables),
                         ('qubo', 4, 6, -6, 3))
        self.assertEqual((model.cost(-6), model.above(-4), model.above(-3)), (0, False, True))

    def test_texts_of_other_tools(self):
        text = b'c mine\np qubo unconstrained 2 1 2\n1 0 2\nc note\n0 1 +1.0\n0 0 -0\n'
        model = parse(text)
        self.assertEqual(model.weights(), {(0, 0): 0, (0, 1): 3})
        self.assertEqual((model.scale, model.unit, model.offset, model.threshold, model.variables),
                         (1, 1, 0, None, 2))

    def test_weights_of_any_size(self):
        self.assertEqual(parse(b'p qubo 0 1 1 0\n0 0 -%d\n' % 2 ** 100).energy([1]), -2 ** 100)

    def test_faults_have_their_line_and_token(self):
        for text, line in ((QUBO.replace('2 3 2', '2 4 2'), 'model:16: range'),
                           (QUBO.replace('2 3 2', '2 3 x'), 'model:16: number'),
                           (QUBO + '0 1 1\n', 'model:17: extra'),
                           (QUBO.replace('2 3 2\n', ''), 'model:15: end'),
                           ('p cnf 1 1\n', 'model:1: word')):
            with self.assertRaisesRegex(TextError, line):
                parse(text.encode())
        with self.assertRaisesRegex(PbisingError, 'scale and unit'):
            parse(QUBO.replace('c unit 1', 'c unit 0').encode())
        with self.assertRaisesRegex(PbisingError, 'below 8'):
            parse(CHIMERA.replace('c chain 0 0 4', 'c chain 0 0 8').encode())
        with self.assertRaisesRegex(PbisingError, 'cannot read nowhere'):
            load('nowhere')


class Energies(unittest.TestCase):
    def test_bits_and_spins(self):
        self.assertEqual([parse(QUBO.encode()).energy(state)
                          for state in ([0, 0, 0, 1], [1, 0, 0, 1], [1, 1, 1, 0])], [-4, -6, -6])
        self.assertEqual([parse(ISING.encode()).energy(state) for state in states(2)],
                         [6, -2, -2, -2])

    def test_dicts_have_the_energy_of_costs(self):
        for text in QUBO, ISING, ISING.replace('c unit 1', 'c unit 3'):
            model = parse(text.encode())
            weights, offset = model.qubo()
            fields, couplings, of_spins = model.ising()
            _, exact = model.qubo(as_cost=True)
            times = 4 if model.kind == 'qubo' else 1
            for state in states(model.nodes):
                spins = [2 * bit - 1 for bit in state]
                cost = Fraction(model.unit * model.energy(state) - model.offset, model.scale)
                energy = sum(w for (i, j), w in weights.items() if state[i] and state[j])
                self.assertEqual(energy + offset, cost * model.scale / model.unit)
                energy = (sum(w * spins[i] for i, w in fields.items())
                          + sum(w * spins[i] * spins[j] for (i, j), w in couplings.items()))
                self.assertEqual(energy + of_spins, times * cost * model.scale / model.unit)
                scaled, least = model.qubo(as_cost=True)
                energy = sum(w for (i, j), w in scaled.items() if state[i] and state[j])
                self.assertAlmostEqual(float(energy + least), float(cost))
            self.assertEqual(exact, least)

    def test_chains(self):
        model = parse(CHIMERA.encode())
        state = [1, 0, 0, 0, 0, 0, 0, 0]
        self.assertEqual((model.assignment(state), model.broken_chains(state)), ([1], [0]))
        self.assertEqual(model.used(), [0, 4])

    def test_a_graph_that_is_a_list(self):
        model, cells = parse(GRAPH.encode()), parse(CHIMERA.encode())
        self.assertEqual((model.kind, model.shape, model.qubits, model.chains),
                         ('graph', None, 8, [[0, 4]]))
        self.assertEqual((cells.kind, cells.shape, cells.qubits), ('chimera', (1, 1, 4), 8))
        self.assertIsNone(parse(ISING.encode()).qubits)
        state = [0, 0, 0, 0, 1, 0, 0, 0]
        self.assertEqual((model.assignment(state), model.broken_chains(state)), ([0], [0]))
        self.assertIn('a list, 8 qubits', model._repr_html_())
        with self.assertRaisesRegex(PbisingError, 'graph has 9 qubits, and the model 8'):
            parse(GRAPH.replace('graph 8', 'graph 9').encode())
        status, out, _ = command('info', '-', given=GRAPH.encode())
        self.assertEqual((status, out.split('\n')[:5]),
                         (0, ['kind graph', 'nodes 8', 'couplers 1', 'graph 8',
                              'chains 1 of 2 qubits']))

    def test_sizes_and_precision(self):
        model = parse(QUBO.replace('0 0 -4', '0 0 0').encode())
        self.assertEqual((model.size().least, model.size().greatest), (2, 4))
        self.assertIn('doubles hold each energy', model.precision())
        wide = parse(QUBO.replace('0 0 -4', f'0 0 {2 ** 53 + 1}').encode())
        self.assertIn('doubles lose digits', wide.precision())

    def test_to_bqm_needs_dimod(self):
        try:
            import dimod
        except ImportError:
            with self.assertRaisesRegex(PbisingError, 'dimod is not installed'):
                parse(QUBO.encode()).to_bqm()
        else:
            bqm = parse(QUBO.encode()).to_bqm()
            self.assertEqual(bqm.vartype, dimod.BINARY)
            self.assertEqual(bqm.energy({0: 1, 1: 0, 2: 0, 3: 1}), 0)


class Searching(unittest.TestCase):
    def test_annealing_meets_a_least_state(self):
        for text in QUBO, ISING, CHIMERA:
            model = parse(text.encode())
            found = anneal(model, reads=4, sweeps=40)
            self.assertEqual(len(found), 4)
            least = min(map(model.energy, states(model.nodes)))
            self.assertEqual(min(map(model.energy, found)), least)
            self.assertEqual(found, anneal(model, reads=4, sweeps=40, seed=1))

    def test_no_reads_and_no_sweeps_are_refused(self):
        for reads, sweeps in (0, 1), (1, 0), (-5, 1):
            with self.assertRaisesRegex(PbisingError, 'at least 1'):
                anneal(parse(QUBO.encode()), reads, sweeps)

    def test_the_first_least_state(self):
        for text in QUBO, ISING, CHIMERA:
            model = parse(text.encode())
            self.assertEqual(least_state(model), min(states(model.nodes), key=model.energy))
        rows = ''.join(f'{node} {node} 1\n' for node in range(25))
        with self.assertRaisesRegex(PbisingError, '25 nodes'):
            least_state(parse(f'p qubo 0 25 25 0\n{rows}'.encode()))

    def test_what_is_missing_has_the_least_energy(self):
        model = parse(QUBO.encode())
        for first in 0, 1:
            found = completed(model, {1: first, 2: 0})
            least = min(model.energy(state) for state in states(4)
                        if state[1:3] == [first, 0])
            self.assertEqual((found[1:3], model.energy(found)), ([first, 0], least))


class Exports(unittest.TestCase):
    def test_coo_and_qpbo(self):
        model = parse(ISING.encode())
        self.assertEqual(list(to_coo(model)), ['# vartype=SPIN', '0 0 -2', '1 1 -2', '0 1 2'])
        self.assertEqual(list(to_qpbo(model)), ['2 3', '1 1 -8', '2 2 -8', '1 2 4'])
        self.assertEqual(list(qpbo_notes(model)), ['energy = optimum + 6'])


if __name__ == '__main__':
    unittest.main()

"""Graphs of qubits as lists, of what samplers and other tools say."""
import unittest
from types import SimpleNamespace

from helper import Array, command, enter_folder, needs_graph, needs_program

import pbising
from pbising import EmbeddingError, PbisingError, TextError, UsageError, hardware

TEXT = '0\n2\n5\n7\n0 2\n2 5\n'


class Numeral:
    """A whole number of another library, as numpy has them."""

    def __init__(self, value):
        self.value = value

    def __index__(self):
        return self.value


class Hardware(unittest.TestCase):
    def test_all_that_says_a_graph(self):
        nodes, edges = [7, 5, 0, 2, 7], [(2, 0), (5, 2), (0, 2)]
        for graph in (SimpleNamespace(nodelist=nodes, edgelist=edges),
                      SimpleNamespace(nodes=nodes, edges=edges),
                      SimpleNamespace(nodes=lambda: nodes, edges=lambda: edges),
                      {7: [], 0: {2}, 2: {0: {}, 5: {}}}, [7, [2, 0], (2, 5)],
                      (part for part in [(Numeral(7),), {0, 2}, (Numeral(5), 2)])):
            self.assertEqual(hardware(graph), TEXT)
        self.assertEqual(hardware([]), '')
        self.assertEqual(hardware([2 ** 20 - 1]), '1048575\n')

    def test_errors_name_what_is_wrong(self):
        for graph, text in (([(0, 2 ** 20)], r'1048576 of \(0, 1048576\) is no number of a qubit'),
                            ([-1], '^-1 is no number'), ({'a': []}, "^'a' is no number"),
                            ([True], 'True is no number'), ([(0, 1.0)], '1.0 of'),
                            ([(3, 3)], r'\(3, 3\) is no qubit, and no coupler'),
                            ([(0, 1, 2)], r'\(0, 1, 2\) is no qubit'), ([()], r'\(\) is no qubit'),
                            ({0: 1}, '1 is no list of the neighbours of 0'), (3, '3 is no graph')):
            with self.assertRaisesRegex(PbisingError, text):
                hardware(graph)


class ToGraph(unittest.TestCase):
    def test_texts(self):
        for text in ('# edges\nc more\n2 0\n5 2\n7\n0 2\n', '[7, [0, 2], [2, 5]]',
                     '{"7": [], "0": [2], "5": [2]}',
                     '{"nodelist": [0, 2, 5, 7], "edgelist": [[0, 2], [2, 5]]}',
                     '{"nodes": [{"id": 7}], "links": [{"source": 0, "target": 2}, '
                     '{"source": 5, "target": 2, "weight": 1}]}'):
            self.assertEqual(command('to-graph', '-', given=text.encode()), (0, TEXT, ''))

    def test_faults(self):
        for text, fault in (('0 1\n0 x\n', 'line 2: x is no number'), ('[0, ', 'this is no JSON'),
                            ('[[0, 1, 2]]', 'no coupler of two qubits'),
                            ('{"nodelist": 3, "edgelist": []}', "'nodelist' is no number")):
            status, out, err = command('to-graph', '-', given=text.encode())
            self.assertEqual((status, out), (2, ''))
            self.assertIn('the standard input: ', err)
            self.assertIn(fault, err)


EDGES = [(0, 1), (1, 2), (2, 0), (2, 5), (5, 9), (9, 4)]
CUT = {('a', 'b'): 2, ('b', 'c'): 3, ('a', 'c'): -1, ('d', 'd'): -4}
CHAINS = {0: [0], 1: [1], 2: [2, 5], 3: [4]}


@needs_program
@needs_graph()
class Compiled(unittest.TestCase):
    def compiled(self, graph=EDGES, chains=CHAINS, **keys):
        """A model of four labels on a graph."""
        return pbising.compile(pbising.from_qubo(CUT), target='graph', graph=graph, map=chains, **keys)

    def test_what_says_the_graph(self):
        folder = enter_folder(self)
        wanted = self.compiled().text
        neighbours = {}
        for a, b in EDGES:
            neighbours.setdefault(a, []).append(b)
        (folder / 'edges').write_text(hardware(EDGES))
        (folder / 'json').write_text('{"nodelist": [4], "edgelist": %s}' % [list(e) for e in EDGES])
        for graph in (SimpleNamespace(nodelist=[4], edgelist=EDGES), neighbours, hardware(EDGES),
                      SimpleNamespace(nodes=[0], edges=EDGES), 'edges', folder / 'json',
                      [list(edge) for edge in EDGES], Array([Array(list(edge)) for edge in EDGES])):
            self.assertEqual(self.compiled(graph).text, wanted)

    def test_what_says_the_chains(self):
        enter_folder(self).joinpath('map').write_text(pbising.chain_map(CHAINS))
        wanted = self.compiled()
        self.assertEqual((wanted.kind, wanted.nodes, wanted.qubits), ('graph', 10, 10))
        self.assertEqual(wanted.chains, [[0], [1], [2, 5], [4]])
        labels = dict(zip('abcd', CHAINS.values()))
        for chains in ('map', pbising.chain_map(CHAINS), labels, {**CHAINS, 3: (4,)},
                       {Numeral(node): chain for node, chain in CHAINS.items()}):
            self.assertEqual(self.compiled(chains=chains).text, wanted.text)
        for part in {0: [0], 1: [1], 2: [2, 5]}, {'a': [0], 'b': [1], 'c': [2, 5]}:
            self.assertEqual(self.compiled(chains=part).text, wanted.text)

    def test_chains_that_are_wrong(self):
        for chains, error, text in (
                ({0: [0], 1: [1], 3: [4]}, PbisingError, 'no chain of node 2, which has couplers'),
                ({'a': [0], 'z': [1]}, PbisingError, "a chain of 'z', and no node is called so"),
                ({'a': [0], 1: [1]}, PbisingError, 'a chain of 1, and no node is called so'),
                ({0: [0], 1: [1], 2: [2, 5, 9, 4]}, PbisingError, 'the graph no qubit left'),
                ({0: [0], 1: [1], 2: [5], 3: [4]}, EmbeddingError, 'no coupler between'),
                ({0: [0], 1: [1], 2: [3], 3: [4]}, EmbeddingError, 'chain 2 names qubit 3')):
            with self.assertRaisesRegex(error, text):
                self.compiled(chains=chains)
        with self.assertRaisesRegex(TextError, "graph:2: number: '0 x' stands where a qubit"):
            self.compiled('0 1\n0 x\n')
        for keys, text in (({'rows': 2}, 'rows= is a key of the target chimera, and not of graph'),
                           ({'dead': [0]}, 'dead= is a key'), ({'graph': None}, 'graph= is missing'),
                           ({'map': None}, 'map= is missing')):
            with self.assertRaisesRegex(UsageError, text):
                pbising.compile('1 x y\n', 'poly', 'graph', **{'graph': EDGES, 'map': {0: [0], 1: [1]}, **keys})

    def test_every_command(self):
        model, source = self.compiled(), pbising.from_qubo(CUT)
        answer = model.solve()
        self.assertEqual((answer.optimum, model.energy(answer.state)), (-5, answer.energy))
        self.assertEqual(model.solve(order='auto').optimum, -5)
        self.assertEqual(model.prove().optimum, -5)
        state = model.extend({'a': 1, 'b': 0, 'c': 1, 'd': 1}).state
        self.assertEqual(state, [1, 0, 1, 0, 1, 1, 0, 0, 0, 0])
        best = model.decode([{0: 1, 1: -1, 2: 1, 5: 1, 4: 1}, [0] * 10]).best
        self.assertEqual((best.cost, best.values), (-5, {'a': 1, 'b': 0, 'c': 1, 'd': 1}))
        self.assertEqual(model.decode([1, 0, 1, 0, 1, 0, 0, 0, 0, 0])[0].broken_chains, [2])
        size = pbising.size(source, target='graph', graph=EDGES, map=CHAINS)
        self.assertEqual((size.nodes, size.couplers), (5, 4))
        self.assertIn('node 2, broken', pbising.draw(model, [1, 0, 1, 0, 1, 0, 0, 0, 0, 0]))


if __name__ == '__main__':
    unittest.main()

"""Graphs, pictures, orders and certificates."""
import unittest
from types import SimpleNamespace

from helper import CHIMERA, GRAPH, ISING, QUBO, command, states

from pbising import (PbisingError, certificate, chain_map, dead, draw, elimination_order, joins_of,
                     parse)
from pbising.elimination import file_width
from pbising.graphs import read_dead, working_lists


def model_of(nodes, pairs):
    """A QUBO with the weight 1 on some pairs."""
    rows = ''.join(f'{i} {j} 1\n' for i, j in pairs)
    return parse(f'p qubo 0 {nodes} 0 {len(pairs)}\n{rows}'.encode())


class Graphs(unittest.TestCase):
    def test_joins(self):
        self.assertEqual(sorted(joins_of(1, 2, 1)), [(0, 1), (1, 3), (2, 3)])
        self.assertEqual(len(list(joins_of(2, 2, 4))), 4 * 16 + 4 * 4)

    def test_a_map_of_chains(self):
        self.assertEqual(chain_map({1: [4], 0: (0, 3)}), '0 0 3\n1 4\n')
        for chains, text in (({0: [1], 2: [0]}, 'no chain of node 1'), ({0: []}, 'no list of qubits'),
                             ({0: ['a']}, 'no list of qubits')):
            with self.assertRaisesRegex(PbisingError, text):
                chain_map(chains)

    def test_dead_parts(self):
        nodes = [0, 1, 2]
        edges = [(0, 1), (3, 2)]
        for graph in (SimpleNamespace(nodes=nodes, edges=edges), (nodes, edges), nodes + edges,
                      SimpleNamespace(nodelist=nodes, edgelist=edges)):
            self.assertEqual(dead(graph, 1, 2, 1), '1 3\n')
        self.assertEqual(dead([0, 1], 1, 2, 1), '2\n3\n')
        for graph, text in (([9], 'are 0 to 3'), ([(0, 3)], 'no such coupler')):
            with self.assertRaisesRegex(PbisingError, text):
                dead(graph, 1, 2, 1)

    def test_texts_of_parts(self):
        self.assertEqual(working_lists('[0, 1]\n[(0, 1)]'), [0, 1, [0, 1]])
        self.assertEqual(read_dead('c\n0\n1 3\n', 'list', (1, 2, 1)), [[0], [1, 3]])
        for text in '4\n', '0 3\n', '0 1 2\n', 'x\n':
            with self.assertRaisesRegex(PbisingError, 'list: line 1'):
                read_dead(text, 'list', (1, 2, 1))

    def test_pictures(self):
        model = parse(CHIMERA.encode())
        picture = draw(model, [1, 0, 0, 0, 0, 0, 0, 0], [[7]], strengths=True)
        self.assertIn('node 0, broken', picture)
        self.assertTrue(picture.startswith('<svg') and picture.endswith('</svg>\n'))
        with self.assertRaisesRegex(PbisingError, 'no model on a graph'):
            draw(parse(QUBO.encode()))

    def test_a_picture_of_a_graph_that_is_a_list(self):
        picture = draw(parse(GRAPH.encode()), [1, 0, 0, 0, 0, 0, 0, 0], strengths=True)
        self.assertIn('node 0, broken', picture)
        self.assertEqual((picture.count('<text'), picture.count('<line')), (4, 1))
        status, out, err = command('draw', '-', given=GRAPH.encode())
        self.assertEqual((status, out[:4], err), (0, '<svg', ''))
        status, out, err = command('draw', '-', '--dead', 'list', given=GRAPH.encode())
        self.assertEqual((status, out), (2, ''))
        self.assertIn('dead parts are those of a Chimera graph', err)


    def test_a_picture_of_many_qubits_has_a_dot_for_each_chain(self):
        picture = draw(chained(3, 40), [1] + [0] * 119)
        self.assertEqual((picture.count('<line'), picture.count('<circle')), (2, 4))
        self.assertIn('node 0, broken', picture)
        self.assertNotIn('broken', draw(chained(3, 40)))
        draw(chained(200, 1))
        with self.assertRaisesRegex(PbisingError, '201 chains, and a graph that is a list is drawn'):
            draw(chained(201, 1))


def chained(chains, qubits):
    """A model of chains of so many qubits each on a list, each coupled with the one before."""
    count = chains * qubits
    rows = [f'{qubit} {qubit} 1' for qubit in range(count)]
    rows += [f'{qubit} {qubit + 1} -1' for qubit in range(count - 1)]
    front = [f'c variables {chains}', f'c graph {count}']
    front += [f'c chain {node} ' + ' '.join(map(str, range(node * qubits, (node + 1) * qubits)))
              for node in range(chains)]
    return parse('\n'.join([*front, f'p ising {count} {count} {count - 1}', *rows]).encode() + b'\n')


class Elimination(unittest.TestCase):
    def test_an_order_of_small_width(self):
        star = model_of(20, [(node, 19) for node in range(19)])
        self.assertEqual(file_width(star), (19, 19))
        order = elimination_order(star)
        self.assertEqual((order.width, sorted(order.nodes)), (1, list(range(20))))
        clique = model_of(18, [(i, j) for j in range(18) for i in range(j)])
        with self.assertRaisesRegex(PbisingError, '17 neighbours or more, and 16 is the most'):
            elimination_order(clique)

    def test_a_certificate_is_the_energy(self):
        for text in QUBO, ISING, CHIMERA:
            model = parse(text.encode())
            found = certificate(model)
            self.assertEqual(model.energy(found.state), found.bound)
            self.assertTrue(all(coefficient > 0 for coefficient, _ in found.lines))
            for state in states(model.nodes):
                total = found.bound + sum(
                    coefficient for coefficient, literals in found.lines
                    if all(state[int(l.lstrip('~'))] != (l[0] == '~') for l in literals))
                self.assertEqual(total, model.energy(state))

    def test_a_wide_model_has_no_certificate(self):
        with self.assertRaisesRegex(PbisingError, 'a line holds 8 literals'):
            certificate(model_of(9, [(i, j) for j in range(9) for i in range(j)]))


if __name__ == '__main__':
    unittest.main()

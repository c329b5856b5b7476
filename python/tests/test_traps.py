"""What users pass to the writers and to `compile`: it means what they mean, or is an error that names
it. No sample is read as one of another problem."""
import random
import unittest
from collections import OrderedDict
from itertools import product
from types import SimpleNamespace

from helper import Array, needs_program, states

import pbising
from pbising import (PbisingError, from_cnf, from_constraints, from_ising, from_polynomial,
                     from_qubo)
from pbising.compiling import words_of


class Polynomial(OrderedDict):
    """What of a polynomial of dimod is used."""

    def __init__(self, terms, vartype):
        super().__init__(terms)
        self.vartype = SimpleNamespace(name=vartype)


class Products(unittest.TestCase):
    def costs(self, source):
        """The cost of each assignment, by the bits of a, b and c."""
        return [source.cost(dict(zip('abc', bits))) for bits in states(3)]

    def test_a_set_of_labels_is_a_product(self):
        tuples = {('a', 'b', 'c'): -3, ('a',): 2, ('b', 'c'): 1, (): 1}
        sets = {frozenset(key): weight for key, weight in tuples.items()}
        for spins in False, True:
            self.assertEqual(self.costs(from_polynomial(sets, spins)),
                             self.costs(from_polynomial(tuples, spins)))
        self.assertEqual(self.costs(from_polynomial(sets)), [1, 1, 1, 2, 3, 3, 3, 1])

    def test_a_set_of_labels_is_a_product_in_a_constraint(self):
        source = from_constraints([({frozenset('ab'): 1}, '>=', 1)], {frozenset('a'): 2, 'b': 1})
        self.assertEqual(sorted(source.names()), ['a', 'b'])
        self.assertEqual([source.cost(bits) for bits in states(2)], [None, None, None, 3])

    def test_pairs_in_sets_and_single_labels(self):
        source = from_qubo({frozenset('ab'): 3, frozenset('a'): -1, ('b',): -2})
        self.assertEqual([source.cost({'a': a, 'b': b}) for a, b in states(2)], [0, -2, -1, 0])
        source = from_ising({'a': 1}, {frozenset('ab'): 2})
        self.assertEqual(source.cost({'a': 1, 'b': -1}), -1)

    def test_a_complement_is_that_of_its_variable(self):
        source = from_polynomial({('a', '~b'): 5, '~a': 2, ('a', '~a'): 9, 'b': 0})
        self.assertEqual(source.names(), ['a', 'b'])
        self.assertEqual([source.cost(bits) for bits in states(2)], [2, 2, 5, 0])

    def test_no_complement_where_there_is_no_product(self):
        for write in (lambda: from_qubo({('~a', 'b'): 1}), lambda: from_ising({'~a': 1}, {}),
                      lambda: from_polynomial({'~a': 1}, spins=True)):
            with self.assertRaisesRegex(PbisingError, "'~a': ~ marks a complement"):
                write()

    def test_a_constant_of_an_objective(self):
        source = from_constraints([({'a': 1, 'b': 1}, '>=', 1)], {'a': 2, (): -7, frozenset(): 3})
        self.assertEqual([source.cost(bits) for bits in states(2)], [None, -4, -2, -2])
        with self.assertRaisesRegex(PbisingError, 'a constant alone'):
            from_constraints([], {(): 1})

    def test_a_polynomial_knows_what_it_is_over(self):
        terms = {frozenset('ab'): 1}
        self.assertEqual([from_polynomial(Polynomial(terms, 'SPIN')).cost(bits)
                          for bits in states(2)], [1, -1, -1, 1])
        self.assertEqual(from_polynomial(Polynomial(terms, 'BINARY')).cost([1, 0]), 0)
        with self.assertRaisesRegex(PbisingError, 'over bits, and not over spins'):
            from_polynomial(Polynomial(terms, 'BINARY'), spins=True)


class Refused(unittest.TestCase):
    def test_keys_that_are_no_pairs(self):
        for key in 'ab', 'x1', ('a', 'b', 'c'), (), 7, frozenset('abc'):
            with self.assertRaisesRegex(PbisingError, 'is no pair of labels'):
                from_qubo({key: 1})
            with self.assertRaisesRegex(PbisingError, 'is no pair of labels'):
                from_ising({}, {key: 1})

    def test_none_is_no_label_and_no_number(self):
        for write in (lambda: from_qubo({(None, 'a'): 1}), lambda: from_polynomial({None: 1}),
                      lambda: from_constraints([({('a', None): 1}, '=', 1)])):
            with self.assertRaisesRegex(PbisingError, 'None is no label'):
                write()
        for weight in None, float('nan'), float('inf'), 'one', 1j, [1]:
            with self.assertRaisesRegex(PbisingError, 'is no whole number'):
                from_qubo({('a', 'a'): weight})

    def test_what_is_no_dict(self):
        for write, told in ((lambda: from_polynomial([('a', 1)]), 'a list is no dict'),
                            (lambda: from_ising({}, [1]), 'a list is no dict'),
                            (lambda: from_qubo('ab'), 'a str is no dict'),
                            (lambda: from_qubo(SimpleNamespace(linear={})), 'is no dict'),
                            (lambda: from_qubo([1, 2]), 'or a square matrix'),
                            (lambda: from_qubo([[1, 2], [3]]), 'or a square matrix'),
                            (lambda: from_constraints([('a', '>=', 1)]), 'a str is no dict'),
                            (lambda: from_constraints([{'a': 1}]), 'is no .terms, operator')):
            with self.assertRaisesRegex(PbisingError, told):
                write()

    def test_what_is_no_file_for_compile(self):
        for value in {('a', 'b'): 1}, [1, 2], None, 7, b'p qubo\n':
            with self.assertRaisesRegex(PbisingError, 'is no file: from_qubo, '):
                pbising.compile(value)
        with self.assertRaisesRegex(PbisingError, "the format wcnf, not 'opb'"):
            pbising.compile(from_cnf('p cnf 1 0\n\n'), 'opb')
        with self.assertRaisesRegex(PbisingError, "not 'wncf'; did you mean 'wcnf'"):
            pbising.compile('h 1 0\n', 'wncf')


class Matrices(unittest.TestCase):
    def test_a_matrix_is_the_sum_over_all_its_entries(self):
        rows = [[1, 2, 0], [3, -4, 0], [0, -1, 0]]
        for matrix in rows, Array(rows), tuple(map(tuple, rows)):
            source = from_qubo(matrix)
            self.assertEqual(source.names(), [0, 1, 2])
            for bits in states(3):
                wanted = sum(rows[i][j] * bits[i] * bits[j] for i, j in product(range(3), repeat=2))
                self.assertEqual(source.cost(bits), wanted)

    def test_fields_in_a_list(self):
        for fields in [1, -2], (1, -2), Array([1, -2]):
            source = from_ising(fields, {(0, 1): 3})
            self.assertEqual([source.cost(spins) for spins in product((-1, 1), repeat=2)],
                             [4, -6, 0, 2])

    def test_numbers_from_0_on_are_the_nodes(self):
        source = from_qubo({(2, 1): 4, (1, 0): 2})
        self.assertEqual((source.names(), source.text), ([0, 1, 2], 'p qubo 0 3 0 2\n2 1 4\n1 0 2\n'))
        self.assertEqual(from_qubo({(2, 1): 4}).names(), [2, 1])
        self.assertEqual(from_qubo({(True, False): 4}).names(), [False, True])


class Keys(unittest.TestCase):
    def test_a_list_of_dead_qubits_is_a_line_for_each(self):
        for value in [0, 3], (0, 3), Array([0, 3]), range(0, 4, 3):
            self.assertEqual(words_of({'dead': value})['dead'].data, b'0\n3\n')
        for value in [3, (0, 4)], [[3], [0, 4]], [3, frozenset((4, 0))]:
            self.assertEqual(words_of({'dead': value})['dead'].data, b'3\n0 4\n')
        self.assertEqual(words_of({'order': [2, 0, 1]})['order'].data, b'2\n0\n1\n')

    def test_lists_of_something_else(self):
        for value in ['0 3'], [0.5], [None], [(0, 'a')]:
            with self.assertRaisesRegex(PbisingError, 'is no number and no pair'):
                words_of({'dead': value})
        for value in 7, b'0':
            with self.assertRaisesRegex(PbisingError, 'no text and no list'):
                words_of({'dead': value})

    def test_none_is_left_out_and_whole_doubles_are_whole(self):
        self.assertEqual(words_of({'bound': None, 'map': None, 'rows': 2.0, 'high': 'rosenberg'}),
                         {'rows': 'rows=2', 'high': 'high=rosenberg'})

    @needs_program
    def test_dead_qubits_are_not_used(self):
        source = from_qubo({('a', 'b'): 1})
        keys = {'target': 'chimera', 'rows': 2, 'cols': 2, 'shore': 2, 'embed': 'clique'}
        model = pbising.compile(source, dead=[0, 3], **keys)
        self.assertFalse({0, 3} & {qubit for chain in model.chains for qubit in chain})
        self.assertEqual(model.chains, pbising.compile(source, dead='0\n3\n', **keys).chains)

    @needs_program
    def test_an_unknown_key_or_value_is_named_with_one_like_it(self):
        for keys, told in (({'hihg': 'rosenberg'}, "'hihg' stands where .* mean 'high'"),
                           ({'high': 'rosenburg'}, "'rosenburg' .* mean 'rosenberg'"),
                           ({'bound': 4.5}, "'4.5' stands where a whole number"),
                           ({'bound': [4]}, 'a whole number'), ({'slack': True}, "'True' stands"),
                           ({'target': 'qbuo'}, "'qbuo' .* mean 'qubo'"),
                           ({'rows': 2}, 'rows= is a key of the target chimera'),
                           ({'order': [0]}, 'order= is a key of `solve`')):
            with self.assertRaisesRegex(pbising.UsageError, told):
                pbising.compile('h 1 0\n', 'wcnf', **keys)


NAMES = ['a', 'b', 'x y', 'ä', '', 'c1', '1', 'min:', 0, 1, 2, 7, -1, 2.5, True, ('p', 1),
         frozenset('pq'), b'r', 'v0', 'x1', ';', 'node 3']


class Drawn:
    """What a user may pass: labels of every kind, and products as tuples, sets or single keys."""

    def __init__(self, seed):
        self.draw = random.Random(seed)
        self.labels = list(dict.fromkeys(self.draw.sample(NAMES, self.draw.randint(2, 5))))

    def key(self, labels):
        """A key of a product."""
        if len(labels) == 1 and not isinstance(labels[0], (tuple, frozenset)) and self.draw.random() < 0.5:
            return labels[0]
        return frozenset(labels) if self.draw.random() < 0.4 else tuple(labels)

    def terms(self, most, least=0):
        """A dict of coefficients by products, and what it sums to, as a function."""
        terms, meant = {}, []
        for _ in range(self.draw.randint(1, 5)):
            labels = self.draw.sample(self.labels, min(self.draw.randint(least, most), len(self.labels)))
            key, weight = self.key(labels), self.draw.choice((-3, -1, 2, 4.0))
            if key not in terms:
                terms[key] = weight
                meant.append((labels, weight))
        return terms, lambda values: sum(
            weight * all(values[label] == 1 for label in labels) for labels, weight in meant), meant


def spin_sum(meant, values):
    """A sum of products of spins."""
    total = 0
    for labels, weight in meant:
        for label in labels:
            weight = weight * values[label]
        total += weight
    return total


class BruteForce(unittest.TestCase):
    def compared(self, source, wanted, low=0):
        """Compares the costs of all assignments by labels."""
        names = source.names()
        for bits in product((low, 1), repeat=len(names)):
            values = dict(zip(names, bits))
            self.assertEqual(source.cost(values), wanted(values), (source.text, values))

    def test_polynomials(self):
        for seed in range(150):
            drawn = Drawn(seed)
            terms, meant, parts = drawn.terms(3)
            used = {label for labels, _ in parts for label in labels}
            self.assertEqual(set(from_polynomial(terms).names()), used)
            self.compared(from_polynomial(terms), meant)
            self.compared(from_polynomial(terms, spins=True),
                          lambda values, parts=parts: spin_sum(parts, values), -1)

    def test_qubos_and_ising_models(self):
        for seed in range(150):
            drawn = Drawn(seed)
            pairs = {}
            for _ in range(4):
                u, v = (drawn.draw.choice(drawn.labels) for _ in range(2))
                key = frozenset((u, v)) if u != v and drawn.draw.random() < 0.4 else (u, v)
                pairs[key] = drawn.draw.randint(-4, 4)
            meant = [(list(key) * (3 - len(key)) if isinstance(key, frozenset) else key, weight)
                     for key, weight in pairs.items()]
            offset = drawn.draw.choice((0, 0, 5))
            self.compared(from_qubo(pairs, offset),
                          lambda values: offset + spin_sum(meant, values))
            fields = {label: drawn.draw.randint(-3, 3) for label in drawn.labels}
            apart = {key: weight for key, weight in pairs.items() if len(set(key)) == 2}
            parts = [*(([label], field) for label, field in fields.items()), *apart.items()]
            self.compared(from_ising(fields, apart, offset),
                          lambda values: offset + spin_sum(parts, values), -1)

    def test_constraints(self):
        for seed in range(150):
            drawn = Drawn(seed)
            terms, total, _ = drawn.terms(2, 1)
            objective, cost, _ = drawn.terms(2)
            operator, bound = drawn.draw.choice(('>=', '<=', '=', '==')), drawn.draw.randint(-3, 4)
            kept = {'>=': int.__ge__, '<=': int.__le__}.get(operator, int.__eq__)
            self.compared(from_constraints([(terms, operator, bound)], {**objective, drawn.labels[0]: 0}
                                           if drawn.labels[0] not in objective else objective),
                          lambda values: cost(values) if kept(int(total(values)), bound) else None)
            self.compared(from_constraints([(terms, operator, bound, 5)]),
                          lambda values: 0 if kept(int(total(values)), bound) else 5)

    @needs_program
    def test_the_program_finds_the_same_optimum(self):
        for seed in range(25):
            drawn = Drawn(seed)
            terms, meant, _ = drawn.terms(3)
            source = from_polynomial(terms)
            least = min(meant(dict(zip(source.names(), bits)))
                        for bits in states(len(source.names())))
            answer = pbising.compile(source).solve()
            self.assertEqual(answer.optimum, least, source.text)
            self.assertEqual(meant(answer.values), least)


if __name__ == '__main__':
    unittest.main()

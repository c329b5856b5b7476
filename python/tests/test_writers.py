"""Writers of problems, and readers of other tools' texts: texts whose costs are those meant."""
import unittest
from itertools import product

from helper import states

from pbising import (PbisingError, TextError, from_cnf, from_constraints, from_coo, from_ising,
                     from_opb, from_polynomial, from_qubo, from_rudy)


class Writing(unittest.TestCase):
    def test_qubo(self):
        weights = {('a', 'a'): -1, ('b', 'a'): 2.0, ('a', 'b'): 1}
        for offset, layout in (0, 'qubo'), (5, 'poly'):
            source = from_qubo(weights, offset)
            self.assertEqual((source.format, source.names()), (layout, ['a', 'b']))
            for a, b in states(2):
                self.assertEqual(source.cost({'a': a, 'b': b}), -a + 3 * a * b + offset)
        with self.assertRaisesRegex(PbisingError, r"\('a', 'b'\): 0.5 is no whole number"):
            from_qubo({('a', 'b'): 0.5})

    def test_ising(self):
        for offset in 0, -3:
            source = from_ising({'a': 2, 7: -1}, {('a', 7): 3}, offset)
            for a, b in product((-1, 1), repeat=2):
                self.assertEqual(source.cost({'a': a, 7: b}), 2 * a - b + 3 * a * b + offset)
        with self.assertRaisesRegex(PbisingError, 'not coupled with itself'):
            from_ising({}, {(0, 0): 1})

    def test_polynomials_over_bits_and_spins(self):
        terms = {('x', 'y', 'z'): 2, 'x': -1, ('y', 'y'): 5, (): 3}
        bits, spins = from_polynomial(terms), from_polynomial(terms, spins=True)
        self.assertEqual(bits.names(), ['x', 'y', 'z'])
        for x, y, z in states(3):
            self.assertEqual(bits.cost([x, y, z]), 2 * x * y * z - x + 5 * y + 3)
            s, t, u = (2 * bit - 1 for bit in (x, y, z))
            self.assertEqual(spins.cost([s, t, u]), 2 * s * t * u - s + 5 + 3)
        with self.assertRaisesRegex(PbisingError, 'no whole number'):
            from_polynomial({('x',): 'one'})

    def test_constraints(self):
        source = from_constraints([({'a': 2, ('a', 'b'): 1, '~b': 1}, '>=', 2)], {'a': 3})
        self.assertEqual((source.format, source.text),
                         ('opb', 'min: 3 x1 ;\n2 x1 1 x1 x2 1 ~x2 >= 2 ;\n'))
        self.assertEqual([source.cost([a, 0]) for a in (0, 1)], [None, 3])
        soft = from_constraints([({'a': 1}, '=', 1, 4), ({'b': 1, 'a': 1}, '<=', 1)], top=9)
        self.assertEqual(soft.text, 'soft: 9 ;\n[4] 1 x1 = 1 ;\n1 x2 1 x1 <= 1 ;\n')
        self.assertEqual([soft.cost(bits) for bits in states(2)], [4, 4, 0, None])
        for constraints, objective, text in (([({'a': 1}, '>', 1)], None, 'is no '),
                                             ([({'a': 1}, '=', 1, 4)], {'a': 1}, 'no place for'),
                                             ([({(): 1}, '=', 1)], None, 'take it off the bound'),
                                             ([({'a': 1}, '=', 0.5)], None, 'no whole number')):
            with self.assertRaisesRegex(PbisingError, text):
                from_constraints(constraints, objective)


class Neighbours(unittest.TestCase):
    def test_coo(self):
        source = from_coo('# vartype=BINARY\n0 0 -1.0\n0 5 2\n')
        self.assertEqual((source.format, source.names()), ('qubo', [0, 5]))
        self.assertEqual(source.cost([1, 1]), 1)
        self.assertEqual(from_coo('# vartype=SPIN\n0 0 1\n0 1 2\n').cost([-1, 1]), -3)
        for text, told in (('0 0 1\n', ':1: word'), ('# vartype=SPIN\n0 1 0.5\n', ":2: number: '0.5'"),
                           ('# vartype=SPIN\n0 1\n', ':2: end')):
            with self.assertRaisesRegex(TextError, told):
                from_coo(text)

    def test_rudy(self):
        source = from_rudy('3 2\n1 2 5\n2 3\n')
        self.assertEqual([source.cost(bits) for bits in ([0, 1, 0], [1, 1, 0])], [-6, -1])
        for text, told in (('3 2\n1 2 5\n', 'end'), ('3 1\n1 4 5\n', ":2: range: '4'"),
                           ('3 0\n1 2 5\n', 'extra'), ('3\n\n', ':1: end'), ('\n', ':1: end')):
            with self.assertRaisesRegex(TextError, told):
                from_rudy(text)

    def test_opb_with_stars_and_without_numbers(self):
        source = from_opb('* a * b\nmin: +1*x1 -2 * ~x2 ;\nx1 +x2 -x3>=1;\n2 x1 x2 = 0 ;\n')
        self.assertEqual(source.text, '* a * b\nmin: +1 x1 -2   ~x2 ;\n1 x1 +1 x2 -1 x3>=1;\n'
                                      '2 x1 x2 = 0 ;\n')
        self.assertEqual(source.cost([1, 0, 0]), -1)
        with self.assertRaisesRegex(TextError, ":1: word: 'x2'"):
            from_opb('x1 x2 >= 1 ;\n')

    def test_cnf(self):
        text = 'c\np cnf 2 2\n1 2 0\n-1\n0\n'
        self.assertEqual(from_cnf(text).text, 'p wcnf 2 2 3\n3 1 2 0\n3 -1 0\n')
        self.assertEqual([from_cnf(text, hard).cost([1, 0]) for hard in (True, False)], [None, 1])
        for text, told in (('p cnf 1 1\n2 0\n', ":2: range: '2'"), ('p cnf 1 1\n1\n', ':2: end'),
                           ('p wcnf 1 0\n\n', ':1: word')):
            with self.assertRaisesRegex(TextError, told):
                from_cnf(text)


if __name__ == '__main__':
    unittest.main()

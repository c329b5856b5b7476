"""Readers of problems: what a text says and costs, and its first fault."""
import re
import unittest

from helper import CORPUS

from pbising import PbisingError, TextError
from pbising.readers import read_problem
from pbising.texts import whole


def fault(layout, text):
    """The line, the kind and the token of a text's fault."""
    try:
        read_problem(layout, text.encode())
    except TextError as error:
        return error.line, error.kind, error.token
    return None


class Numbers(unittest.TestCase):
    def test_a_sign_digits_a_point_and_zeros(self):
        for word, value in (('+7', 7), ('007', 7), ('7.', 7), ('-01.00', -1), ('-0', 0),
                            ('0' * 5000 + '3', 3), ('18446744073709551615', 2 ** 64 - 1)):
            self.assertEqual(whole(word), value, word)
        for word in ('18446744073709551616', '0.5', '1e3', '1_0', '.0', '+', '', '٣'):
            self.assertIsNone(whole(word), word)


class Costs(unittest.TestCase):
    def test_weighted_cnf_in_both_layouts(self):
        for text in ('p wcnf 2 2 10\n10 1 2 0\n3 -1\n0\n', 'h 1 2 0\n3 -1 0\n'):
            problem = read_problem('wcnf', text.encode())
            self.assertEqual([problem.cost(bits) for bits in ((0, 0), (0, 1), (1, 0))],
                             [None, 0, 3])

    def test_products_and_complements_of_opb(self):
        problem = read_problem('opb', b'min:2 x1 ~x2;\n1 x1 1 x2=1;\n* a comment\n-1 x1 <= 0 ;')
        self.assertEqual([problem.cost(bits) for bits in ((1, 0), (0, 1), (1, 1))], [2, 0, None])

    def test_soft_constraints_below_top(self):
        problem = read_problem('wbo', b'soft: 3 ;\n[2] 1 x1 >= 1 ;\n[2] 1 x2 >= 1 ;\n')
        self.assertEqual([problem.cost(bits) for bits in ((0, 0), (0, 1), (1, 1))], [None, 2, 0])
        broken = problem.judge((0, 1)).broken()
        self.assertEqual(broken, [(2, 2, '1 x1 >= 1, the sum is 0')])

    def test_names_of_a_polynomial(self):
        problem = read_problem('poly', b'0 z\n-2 x ~z\n7\n')
        self.assertEqual((problem.names, problem.cost((0, 1))), (['z', 'x'], 5))

    def test_qubo_and_ising(self):
        self.assertEqual(read_problem('qubo', b'p qubo 0 2 1 2\n0 1 1\n1 0 2\n0 0 5.0\n')
                         .cost((1, 1)), 8)
        self.assertEqual(read_problem('ising', b'p ising 2 1 1\n0 0 5\n0 1 3\n').cost((0, 1)), -8)


class Faults(unittest.TestCase):
    def test_tokens_that_cannot_stand(self):
        for layout, text, wanted in (
                ('wcnf', 'p cnf 1 1\n1 0\n', (1, 'word', 'cnf')),
                ('wcnf', 'p wcnf 1 1 9\n9 2 0\n', (2, 'range', '2')),
                ('wcnf', 'h 1\n', (1, 'end', None)),
                ('opb', 'min: +1*x1 ;\n', (1, 'number', '+1*x1')),
                ('opb', '1 x1 == 1 ;', (1, 'number', '==')),
                ('opb', '1 x0 = 1 ;', (1, 'range', 'x0')),
                ('wbo', 'soft: ;\n[2 1 x1 >= 1 ;\n', (2, 'word', '1')),
                ('poly', '1 x\n2 x-y\n', (2, 'word', 'x-y')),
                ('qubo', 'p qubo 0 1 1 0\n0 0 1\n0 0 1\n', (3, 'extra', '0')),
                ('ising', 'p ising 2 0 1\n0 x 1\n', (2, 'number', 'x'))):
            self.assertEqual(fault(layout, text), wanted, text)

    def test_the_error_says_what_is_wanted(self):
        with self.assertRaisesRegex(TextError, "text:1: word: 'x1' stands where a whole number or "
                                               "`;` is wanted"):
            read_problem('opb', b'min: x1 ;')
        with self.assertRaisesRegex(PbisingError, 'lp is no format'):
            read_problem('lp', b'')

    @unittest.skipUnless(CORPUS.is_dir(), 'the examples of the formats are not here')
    def test_the_examples_of_the_formats(self):
        blocks = re.split(r'^> ', (CORPUS / 'stdout').read_text(), flags=re.MULTILINE)[1:]
        answers = [block.split('\n', 2) for block in blocks if block.startswith(('good/', 'bad/'))]
        self.assertGreater(len(answers), 100)
        for path, status, answer in answers:
            words, _, data = (CORPUS / 'data' / path).read_bytes().partition(b'@ ')
            name, _, data = data.partition(b'\n')
            if status == 'status 6' or b'@' in data or not name.isascii() or b' ' in name:
                continue
            layout = words.split()[1].decode()
            with self.subTest(path):
                if status == 'status 0':
                    problem = read_problem(layout, data, name.decode())
                    self.assertIn(f'c variables {problem.variables}\n', answer)
                else:
                    with self.assertRaisesRegex(TextError, '^' + re.escape(answer.rstrip('\n'))):
                        read_problem(layout, data, name.decode())


if __name__ == '__main__':
    unittest.main()

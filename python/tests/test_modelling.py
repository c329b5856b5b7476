"""Expressions, conditions and problems: what they say, how they are written, what is refused."""
import pickle
import random
import unittest
from itertools import product
from unittest import mock

from helper import needs_program

from pbising import PbisingError, Problem, quicksum
from pbising.lowering import Wanted, failure, goal_terms, over_bits
from pbising.modelling import _steps


def three():
    """A problem with a bit, a spin and a number."""
    problem = Problem()
    return problem, problem.binary('x'), problem.spin('s'), problem.integer('n', -1, 4)


EVERY = [dict(zip('xsn', values)) for values in product((0, 1), (-1, 1), range(-1, 5))]


class Expressions(unittest.TestCase):
    def test_arithmetic_is_that_of_values(self):
        _, x, s, n = three()
        for told, made in (
                ('2 * x - 3 + s', lambda x, s, n: 2 * x - 3 + s),
                ('(x + s - n) ** 2', lambda x, s, n: (x + s - n) ** 2),
                ('x * s * n * n', lambda x, s, n: x * s * n * n - (n - 5) * (1 - x)),
                ('-(7 - n)', lambda x, s, n: -(7 - n) + (+s) + 0 * n ** 0),
                ('powers', lambda x, s, n: x ** 3 + s ** 3 + s ** 2 + n ** 3)):
            built = made(x, s, n)
            for values in EVERY:
                self.assertEqual(built.value(values), made(*values.values()), told)

    def test_polynomials_over_bits_have_the_same_values(self):
        problem, x, s, n = three()
        built = (x - 2 * s + n) ** 2 * (n - 1) + 3 * s * x
        bits_of = problem.source().bits
        for values in EVERY:
            bits = bits_of(values)
            total = sum(c for ones, c in over_bits(built).items() if all(bits[bit] for bit in ones))
            self.assertEqual(total, built.value(values))

    def test_texts(self):
        _, x, s, n = three()
        for built, text in ((2 * x - s * n + 4, '2*x - s*n + 4'), (-x, '-x'), (x - x, '0'),
                            (x * x + s * s, 'x + 1'), (3 * n >= x, '3*n >= x'),
                            (2 == n, 'n == 2'), (n < 3, 'n + 1 <= 3'), (n > x, 'n - 1 >= x')):
            self.assertEqual(str(built), text)
        self.assertLess(len(str(quicksum((at + 2) * x * n ** at for at in range(200)))), 130)

    def test_conditions_hold_as_of_numbers(self):
        _, x, s, n = three()
        for made in (lambda x, s, n: n <= 2 * x, lambda x, s, n: n * n >= 3 + s,
                     lambda x, s, n: n == 1 + x, lambda x, s, n: n < 2, lambda x, s, n: 2 * x > s):
            for values in EVERY:
                self.assertEqual(made(x, s, n).holds(values), made(*values.values()))

    def test_what_is_no_expression(self):
        problem, x, s, n = three()
        for text, made in (('scaling', lambda: 0.5 * x), ('scaling', lambda: x / 2),
                           ("'a' stands beside `x`", lambda: x + 'a'), ('a power', lambda: x ** -1),
                           ('written as two', lambda: problem.add(0 <= n <= 3)),
                           ('neither true nor false', lambda: bool(x == 1)),
                           ('it is no condition', lambda: x != s),
                           ('None stands', lambda: x <= None),
                           ('products of bits', lambda: over_bits(n * s * x))):
            with mock.patch('pbising.lowering.MOST_TERMS', 7):
                with self.assertRaisesRegex(PbisingError, text):
                    made()
        self.assertEqual(str(2.0 * x), '2*x')

    def test_steps_reach_each_number_and_none_above(self):
        for span in range(20):
            for most in (1, 2, 3, 4, 20):
                steps = _steps(span, most)
                sums = {sum(part) for part in product(*((0, step) for step in steps))}
                self.assertEqual(sums, set(range(span + 1)))
                self.assertLessEqual(max(steps, default=1), most)


class Refused(unittest.TestCase):
    def test_names_and_ranges(self):
        problem, x, _, n = three()
        for text, made in (('x is the name', lambda: problem.spin('x')),
                           ('is the name', lambda: problem.binary('n[0]')),
                           ('5 is above 4', lambda: problem.integer('m', 5, 4)),
                           ('no whole number', lambda: problem.integer('m', 0, 4, most=0)),
                           ('no whole number', lambda: problem.integer('m', 0.5, 4)),
                           ('two are the same', lambda: problem.one_hot('c', [1, 1])),
                           ('no choice', lambda: problem.one_hot('c', []))):
            with self.assertRaisesRegex(PbisingError, text):
                made()

    def test_conditions(self):
        problem, x, _, n = three()
        other = Problem().binary('x')
        for text, made in (('x in `x - 1` is of another', lambda: problem.add(other <= 1)),
                           ('another problem', lambda: problem.minimize(other + x)),
                           ('3 is no condition', lambda: problem.add(3)),
                           ('False is no condition.*never', lambda: problem.add(False)),
                           ('`x - x >= 1` never|`0 >= 1` never', lambda: problem.add(x - x >= 1)),
                           ('weight of `x <= 0` is -1', lambda: problem.add(x <= 0, weight=-1)),
                           ('no whole number', lambda: problem.add(x <= 0, weight=0.5))):
            with self.assertRaisesRegex(PbisingError, text):
                made()
        problem.add(True)
        problem.add(x * 0 <= 0)
        self.assertEqual(problem.conditions, [])

    def test_choices(self):
        colour = Problem().one_hot('colour', ['red', 'green'])
        with self.assertRaisesRegex(PbisingError, "'blue' is none of its choices red, green"):
            colour['blue']
        with self.assertRaisesRegex(PbisingError, 'no whole number'):
            colour.number
        self.assertEqual((len(colour), list(colour)), (2, ['red', 'green']))

    def test_formats(self):
        problem = Problem()
        with self.assertRaisesRegex(PbisingError, 'no variable'):
            problem.source()
        problem.minimize(problem.binary('x'))
        for layout, text in ('wbo', 'no objective'), ('poly', 'as opb or wbo'):
            with self.assertRaisesRegex(PbisingError, text):
                problem.source(layout)


class Texts(unittest.TestCase):
    def test_opb(self):
        problem, x, s, n = three()
        problem.add(2 * x + n <= 3, name='room')
        problem.minimize(3 * x - n)
        self.assertEqual(problem.source().text, 'min: 3 x1 1 ~x3 -2 x4 -2 x5 ;\n'
                         '* room: 2*x + n <= 3\n2 x1 1 x3 2 x4 2 x5 <= 4 ;\n')

    def test_wbo(self):
        problem, x, s, n = three()
        problem.add(x + s >= 0, weight=3, name='wish')
        problem.add(n == 2)
        self.assertEqual(problem.source().text,
                         'soft: ;\n* wish: x + s >= 0\n[3] 1 x1 2 x2 >= 1 ;\n'
                         '* n == 2\n1 x3 2 x4 2 x5 = 3 ;\n')

    def test_constants_add_no_weight_where_they_can(self):
        for goal in ({(): 3, (0,): -5}, {(): -3, (0,): 2, (1,): 2}, {(): 2, (0,): 1}, {(): 4},
                     {(): -2, (0, 1): 3, (0,): 7}, {(0,): 1}):
            terms = goal_terms(goal)
            for bits in product((0, 1), repeat=2):
                truth = lambda literal: bits[abs(literal) - 1] == (literal > 0)
                self.assertEqual(sum(c for c, literals in terms if all(map(truth, literals))),
                                 sum(c for ones, c in goal.items() if all(bits[b] for b in ones)))
            if goal.get((), 0) * sum(c for ones, c in goal.items() if len(ones) == 1) < 0:
                self.assertEqual(sum(abs(c) for c, _ in terms),
                                 sum(abs(c) for ones, c in goal.items() if ones))

    def test_failures_of_few_bits(self):
        problem = Problem()
        x, y, z = (problem.binary(name) for name in 'xyz')
        for condition in (x + y <= 1, x >= y, x + y == 1, x == 1, 2 * x * y <= 1, x - y >= 0):
            constraint = Wanted(condition, '').constraint()
            fails = failure(constraint)
            for bits in product((0, 1), repeat=3):
                value = sum(c for ones, c in fails.items() if all(bits[bit] for bit in ones))
                self.assertEqual(value, not condition.holds(dict(zip('xyz', bits))))
        self.assertIsNone(failure(Wanted(x + y + z <= 1, '').constraint()))


@needs_program
class Compiled(unittest.TestCase):
    def test_values_come_back(self):
        problem = Problem()
        n, s = problem.integer('n', 3, 9, most=2), problem.spin('s')
        colour = problem.one_hot(('colour', 1), ['red', 'green'])
        problem.add(n + s == 7)
        problem.add(colour != 'red')
        problem.minimize((n - 8) ** 2 + s)
        answer = problem.compile().solve()
        self.assertEqual((answer.cost, answer.values),
                         (-1, {'n': 8, 's': -1, ('colour', 1): 'green'}))

    def test_assignments_by_values(self):
        problem, x, s, n = three()
        problem.add(x + s + n >= 2, weight=5, name='wish')
        problem.minimize(n)
        model = problem.compile()
        answer = model.extend({'x': 1, 's': -1, 'n': 3})
        self.assertEqual((answer.cost, answer.values), (3, {'x': 1, 's': -1, 'n': 3}))
        answer = model.extend({'x': 0, 's': -1, 'n': -1})
        self.assertEqual(answer.cost, 4)
        for wrong in {'x': 1, 's': 0, 'n': 1}, {'x': 1, 's': 1, 'n': 5}, {'x': 1, 's': 1}:
            with self.assertRaisesRegex(PbisingError, 's: 0 is no|n: 5 is no|nothing of'):
                model.extend(wrong)

    def test_broken_conditions_are_called_by_name(self):
        problem, x, s, n = three()
        problem.add(x + s + n <= 2, name='room')
        problem.add(x + n + s >= 3, weight=2, name='wish')
        problem.add(x == 1, weight=1)
        problem.minimize(n)
        model = problem.compile()
        bits = model.source.bits({'x': 0, 's': 1, 'n': 2})
        broken = model.decode([bits + [0] * (model.nodes - len(bits))]).best.broken
        self.assertEqual([(part.weight, part.text) for part in broken],
                         [(None, 'room: x + s + n <= 2, by 1'), (1, 'x == 1, by 1')])

    def test_no_choice_where_not_just_one_is_made(self):
        problem = Problem()
        problem.one_hot('c', 'ab')
        model = problem.compile()
        values = [one.values['c'] for one in model.decode([[0, 0], [1, 1], [1, 0]])]
        self.assertEqual(values, [None, None, 'a'])

    def test_models_travel(self):
        problem, x, s, n = three()
        problem.minimize(n * s + x)
        model = pickle.loads(pickle.dumps(problem.compile()))
        self.assertEqual(model.solve().values, {'x': 0, 's': -1, 'n': 4})
        self.assertEqual(problem.size().nodes, model.nodes)

    def test_drawn_problems(self):
        for seed in range(25):
            draw = random.Random(seed)
            problem, x, s, n = three()
            some = [x, s, n, x * s, n * s, n * n]
            soft, goal = [], quicksum(draw.randint(-4, 4) * part for part in some)
            for _ in range(draw.randint(0, 3)):
                left = quicksum(draw.randint(-3, 3) * part for part in draw.sample(some, 2))
                condition = draw.choice((left <= 2, left >= -1, left == n - 1, left * x <= s))
                weight = draw.choice((None, 1, 6))
                if condition.difference.terms:
                    problem.add(condition, weight=weight)
                    soft.append((condition, weight))
            if draw.random() < 0.7:
                problem.minimize(goal)
            else:
                goal = 0 * x

            def cost(values):
                fails = [weight for condition, weight in soft if not condition.holds(values)]
                return None if None in fails else sum(fails) + goal.value(values)
            found = [value for value in map(cost, EVERY) if value is not None]
            answer = problem.compile(slack=draw.choice(('bits', 'pairs'))).solve()
            self.assertEqual(answer.cost, min(found, default=None), (seed, problem.source().text))
            if found:
                self.assertEqual(cost(answer.values), answer.cost)


if __name__ == '__main__':
    unittest.main()

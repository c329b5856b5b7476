"""Under a bound every state of every model stands for its assignment: forty drawn files of each format.

The costs come from the second program of reference/. The bounds are drawn below all possible costs, among
them, and above; the models are of bits, of spins, and of spins on chains, with and without a reduced
unit. A state is to cost at least what it decodes to, or to lie above the threshold where that is
infinite; each assignment within the bound is reached, and the threshold is the lesser of both bounds.
"""
import random
import subprocess
import sys
import unittest
from itertools import product

from helper import ROOT, find_program, needs_program

sys.path.insert(0, str(ROOT / 'reference'))

from readings import read_source  # noqa: E402 (the path comes first)
from translation import Model, cost, gain, own_upper  # noqa: E402

DRAWN, VARIABLES, MOST = 40, 3, 5
FORMATS = ('wcnf', 'wbo', 'opb', 'poly', 'ising', 'qubo')


def literals(draw, most, sign, variables=VARIABLES):
    """Some literals over different variables."""
    chosen = draw.sample(range(1, variables + 1), draw.randint(1, most))
    return [(sign if draw.random() < 0.4 else '') + f'{each}' for each in chosen]


def wcnf(draw):
    """Some clauses of up to five literals, hard ones and soft ones."""
    count = draw.randint(VARIABLES, MOST)
    rows = [f'{draw.choice((9, 1, 2, 3))} {" ".join(literals(draw, count, "-", count))} 0' for _ in range(4)]
    return '\n'.join([f'p wcnf {count} 4 9'] + rows) + '\n'


def row(draw):
    """A constraint of two literals."""
    terms = ' '.join(f'{draw.choice((-2, -1, 1, 2)):+d} {one.replace("~", "~x") if "~" in one else "x" + one}'
                     for one in literals(draw, 2, '~'))
    return f'{terms} {draw.choice((">=", ">=", "="))} {draw.randint(-1, 2)} ;'


def objective(draw):
    """A sum of variables."""
    return ' '.join(f'{draw.randint(-4, 4):+d} x{each}' for each in range(1, VARIABLES + 1))


def opb(draw):
    """An objective and a constraint."""
    return f'min: {objective(draw)} ;\n{row(draw)}\n'


def wbo(draw):
    """A soft constraint, and a hard one."""
    return f'soft: {draw.choice(("", "4 "))};\n[{draw.randint(1, 4)}] {row(draw)}\n{row(draw)}\n'


def poly(draw):
    """A polynomial of up to five names, some of them complemented."""
    names = 'abcde'[:draw.randint(VARIABLES, MOST)]
    rows = [[draw.choice(('', '', '~')) + name for name in draw.sample(names, draw.randint(0, len(names)))]
            for _ in range(4)]
    return ''.join(' '.join([str(draw.randint(-4, 4))] + row) + '\n' for row in rows)


def entries(kind, draw):
    """A file of nodes and couplers."""
    nodes = [f'{each} {each} {draw.randint(-3, 3)}' for each in range(VARIABLES)]
    pairs = [f'{low} {high} {draw.choice((-2, -1, 1, 2))}' for low, high in ((0, 1), (0, 2), (1, 2))]
    head = f'p qubo 0 {VARIABLES} 3 3' if kind == 'qubo' else f'p ising {VARIABLES} 3 3'
    return '\n'.join([head] + nodes + pairs) + '\n'


def drawn(layout, draw):
    """A text of a format."""
    if layout in ('ising', 'qubo'):
        return entries(layout, draw)
    return {'wcnf': wcnf, 'wbo': wbo, 'opb': opb, 'poly': poly}[layout](draw)


def drawn_bound(draw, problem):
    """A number below the least possible cost, from there to the upper bound, or above it."""
    high = own_upper(problem)
    low = high - gain(problem)
    return draw.choice((low - draw.randint(1, 3), draw.randint(low, high), draw.randint(low, high),
                        high + draw.randint(1, 3)))


class Written:
    """A model as its text says it."""

    def __init__(self, text):
        self.figures, self.chains, self.weights, self.nodes, self.spins = {}, [], [], 0, False
        for line in text.splitlines():
            words = line.split()
            if words[:2] == ['c', 'chain']:
                self.chains.append([int(each) for each in words[3:]])
            elif words[0] == 'c' and len(words) == 3:
                self.figures[words[1]] = int(words[2])
            elif words[0] == 'p':
                self.spins = words[1] == 'ising'
                self.nodes = int(words[2 if self.spins else 3])
            elif words[0] != 'c':
                self.weights.append(tuple(map(int, words)))

    def energy(self, state):
        """What a state of bits weighs."""
        seen = [2 * bit - 1 for bit in state] if self.spins else state
        return sum(weight * (seen[i] if i == j else seen[i] * seen[j]) for i, j, weight in self.weights)

    def decoded(self, state):
        """The assignment that a state stands for: on a tie of a chain by its first qubit."""
        count = self.figures['variables']
        if not self.chains:
            return state[:count]
        ones = [[state[qubit] for qubit in chain] for chain in self.chains[:count]]
        return tuple(int(2 * sum(bits) > len(bits) or 2 * sum(bits) == len(bits) and bits[0] == 1)
                     for bits in ones)


def fault(model, costs, most):
    """What is wrong with a model of these costs by assignment under a bound, or none."""
    figures, reached = model.figures, set()
    scale, offset, threshold = figures['scale'], figures['offset'], figures['threshold']
    used = sorted({node for chain in model.chains for node in chain}) or range(model.nodes)
    for bits in product((0, 1), repeat=len(used)):
        state = [0] * model.nodes
        for node, bit in zip(used, bits):
            state[node] = bit
        chosen, energy = model.decoded(tuple(state)), figures['unit'] * model.energy(state)
        found = costs[chosen]
        if found is None or found > most:
            if energy <= threshold:
                return f'{state} breaks or costs more and lies at {energy}'
        elif energy < scale * found + offset:
            return f'{state} costs {found} and lies at {energy}'
        elif energy == scale * found + offset and energy <= threshold:
            reached.add(chosen)
    wanted = {each for each, found in costs.items() if found is not None and found <= most}
    return None if reached == wanted else f'reached are {sorted(reached)} of {sorted(wanted)}'


@needs_program
class Bounds(unittest.TestCase):
    def compiled(self, layout, text, words):
        """The model that the program writes of a text."""
        ran = subprocess.run([find_program(), 'compile', layout, words[0], '/dev/stdin'] + words[1:],
                             input=text, capture_output=True, check=False, text=True)
        self.assertEqual(ran.returncode, 0, (layout, text, words, ran.stderr))
        return Written(ran.stdout)

    def stands(self, layout, text, most, words):
        """Compares all states of a model with the costs of the text."""
        problem = read_source(layout, text.encode())
        model = self.compiled(layout, text, words + [f'bound={most}'])
        costs = {each: cost(problem, each) for each in product((0, 1), repeat=model.figures['variables'])}
        threshold = model.figures['scale'] * min(own_upper(problem), most) + model.figures['offset']
        self.assertEqual(model.figures['threshold'], threshold, (layout, text, most, words))
        self.assertIsNone(fault(model, costs, most), (layout, text, most, words))

    def test_every_state_stands_for_its_bounded_cost(self):
        draw = random.Random(20261130)
        for layout in FORMATS:
            made = 0
            while made < DRAWN:
                text = drawn(layout, draw)
                problem = read_source(layout, text.encode())
                most = drawn_bound(draw, problem)
                nodes = Model(problem, {'bound': str(most)}, 'ising').nodes
                if nodes > 8:
                    continue
                unit = draw.choice(('unit=one', 'unit=reduce'))
                for target in ('qubo', 'ising'):
                    self.stands(layout, text, most, [target, unit])
                if nodes <= 5:
                    made += 1
                    self.stands(layout, text, most, ['chimera', 'rows=1', 'cols=1', f'shore={max(nodes, 1)}',
                                                     'embed=clique', unit])


if __name__ == '__main__':
    unittest.main()

"""With `penalty=local` and `slack=clauses` every state of every model stands for its assignment: drawn
files of each format, with bounds, units, spins and chains.

A state that decodes to an assignment of a finite cost has at least that; one of another decodes lies above
the threshold, or some assignment costs less than its energy. For WBO the first need not be, but then
the same is true. Each assignment is reached, and the least states decode to exactly the least ones.
"""
import random
import unittest
from itertools import product

from drawn import LAYOUTS, problem

from helper import needs_graph, needs_local, needs_program, states

import pbising
from pbising.parts import compiled_of
from pbising.penalties import Walk

DRAWN = 12
SLACKS = ('bits', 'pairs', 'clauses', 'clauses')


def fault(rows, scaled, threshold, lower):
    """What is wrong with the energies of assignments, by what each costs in energy, or None where
    that is infinite; `lower` says whether one may lie below what it costs."""
    least = min((cost for cost in scaled.values() if cost is not None), default=None)
    for chosen, energy in rows:
        cost = scaled[chosen]
        ahead = least is not None and least < energy
        kept = cost is not None and energy >= cost or energy > threshold or ahead
        if not kept or not lower and cost is not None and energy < cost:
            return f'{chosen} costs {cost} and lies at {energy}'
    return None


def least_fault(rows, scaled, threshold):
    """The same of the least energies alone."""
    least = min(energy for _, energy in rows)
    found = {chosen for chosen, energy in rows if energy == least}
    finite = [cost for cost in scaled.values() if cost is not None]
    if not finite:
        return None if least > threshold else f'{found} are infeasible and lie at {least}'
    wanted = {chosen for chosen, cost in scaled.items() if cost == min(finite)}
    return None if (least, found) == (min(finite), wanted) else f'{found} lie at {least}'


class Case:
    """A drawn file, and keys of a model of it."""

    def __init__(self, layout, draw):
        self.layout, self.text = layout, problem(layout, draw)
        self.keys = {'slack': draw.choice(SLACKS), 'penalty': 'local',
                     'unit': draw.choice(('one', 'reduce')),
                     'high': draw.choice(('monomial', 'rosenberg')),
                     'normal': draw.choice(('literal', 'multilinear')),
                     'bound': draw.choice((None, None, draw.randint(-4, 9)))}

    def compiled(self, target, **keys):
        """The model on a target."""
        return pbising.compile(self.text, self.layout, target, **self.keys, **keys)

    def scaled(self, model):
        """What each assignment costs in energy, within the bound."""
        most, found = self.keys['bound'], {}
        for bits in product((0, 1), repeat=model.variables):
            cost = model.source.cost(bits)
            within = cost is not None and (most is None or cost <= most)
            found[bits] = model.scale * cost + model.offset if within else None
        return found

    def fault(self, model, ties=False):
        """What is wrong with a model; where ties are only as strong as need be, with its least
        states."""
        used, rows, scaled = model.used(), [], self.scaled(model)
        for bits in product((0, 1), repeat=len(used)):
            state = [0] * model.nodes
            for node, bit in zip(used, bits):
                state[node] = bit
            rows.append((tuple(model.assignment(state)), model.unit * model.energy(state)))
        wrong = None if ties else fault(rows, scaled, model.threshold, self.layout == 'wbo')
        missed = {cost for cost in scaled.values() if cost is not None}.difference(
            energy for _, energy in rows)
        return wrong or least_fault(rows, scaled, model.threshold) or (missed and f'{missed}') or None

    def threshold(self, model):
        """The threshold that the text asks for."""
        made = compiled_of(model.source.problem, model.request.values())
        high = made.constant + sum(max(c, 0) for c, _ in made.terms)
        return model.scale * (high if made.most is None else min(high, made.most)) + model.offset


def cases(count=DRAWN):
    """Drawn files of each format."""
    draw = random.Random(74)
    for layout in LAYOUTS:
        for _ in range(count):
            yield Case(layout, draw)


@needs_program
class EveryState(unittest.TestCase):
    def stands(self, case, model, ties=False):
        """Compares all states with the costs."""
        told = (case.layout, case.text, case.keys, model.kind)
        self.assertIsNone(case.fault(model, ties), told)
        if case.layout not in ('qubo', 'ising'):
            self.assertEqual(model.threshold, case.threshold(model), told)

    @needs_local()
    def test_bits_and_spins(self):
        for case in cases():
            for target in 'qubo', 'ising':
                model = case.compiled(target)
                if model.nodes <= 9:
                    self.stands(case, model)

    @needs_local()
    def test_chains(self):
        for case in cases():
            nodes = case.compiled('ising').nodes
            if nodes <= 5:
                keys = {'rows': 1, 'cols': 1, 'shore': max(nodes, 1), 'embed': 'clique'}
                self.stands(case, case.compiled('chimera', **keys))
                self.stands(case, case.compiled('chimera', chain='cut', **keys), True)

    @needs_local()
    @needs_graph()
    def test_chains_on_drawn_graphs(self):
        draw = random.Random(73)
        for case in cases():
            nodes = case.compiled('ising').nodes
            if nodes <= 5:
                graph, chains = drawn_graph(draw, nodes)
                self.stands(case, case.compiled('graph', graph=graph, map=chains))
                self.stands(case, case.compiled('graph', graph=graph, map=chains, chain='cut'), True)


def drawn_graph(draw, nodes):
    """A graph whose numbers have gaps, and chains in it of which each two touch."""
    qubits = draw.sample(range(30), 2 * nodes)
    chains = {node: qubits[2 * node:2 * node + draw.randint(1, 2)] for node in range(nodes)}
    pairs = [tuple(chain) for chain in chains.values() if len(chain) == 2]
    pairs += [(draw.choice(chains[i]), draw.choice(chains[j]))
              for j in range(nodes) for i in range(j)]
    more = [tuple(draw.sample(qubits, 2)) for _ in range(nodes)]
    return qubits + pairs + more, chains


class OneLess(unittest.TestCase):
    """The comparison fails where one penalty is smaller: energies by the rule, without a program."""

    def fault(self, walk):
        """What is wrong with the least energies of all assignments of a problem."""
        rows, scaled = [], {}
        for bits in states(walk.problem.variables):
            chosen, energy = tuple(bits), walk.energy(bits)
            within = walk.problem.most is None or energy <= walk.problem.most
            rows.append((chosen, energy))
            scaled[chosen] = None if walk.broken or not within else energy
        high = walk.problem.constant + sum(max(c, 0) for c, _ in walk.problem.terms)
        threshold = min(high, high if walk.problem.most is None else walk.problem.most)
        return fault(rows, scaled, threshold, False) or least_fault(rows, scaled, threshold)

    def test_a_penalty_one_smaller_fails(self):
        failed = 0
        for case in cases(40):
            source = pbising.Source(case.text.encode(), case.layout)
            keys = {key: str(value) for key, value in case.keys.items() if value is not None}
            if not source.has_parts:
                continue
            walk = Walk(compiled_of(source.problem, keys))
            self.assertIsNone(self.fault(walk), case.text)
            for at, penalty in enumerate(walk.own):
                walk.own[at] = penalty and penalty - 1
                failed += penalty is not None and self.fault(walk) is not None
                walk.own[at] = penalty
        self.assertGreater(failed, 10)


if __name__ == '__main__':
    unittest.main()

"""Makes the model of a problem and writes its text: a second program beside the layers.

It is written from docs/METHODS.md, REFERENCE.md and FORMATS.md, with the sums of a step in one
dictionary, and takes no step of the program. Chains of qubits are put in by chains.py.

    made = Model(problem, {'normal': 'literal', 'high': 'monomial', 'unit': 'one'}, 'qubo')
    made.text(), made.energy(bits), made.extended(bits)      # or Model raises Limit
"""
from itertools import combinations, repeat
from math import gcd

from conflicts import without_conflicts
from local_penalties import own_penalties
from readings import rewritten

MOST = {'variables': 2 ** 20, 'degree': 1024, 'negations': 8, 'pairs': 2 ** 24,
        'weight': 2 ** 64 - 1}
USUAL = {'normal': 'literal', 'high': 'monomial', 'unit': 'one', 'slack': 'bits', 'bound': None,
         'penalty': 'global'}


class Limit(Exception):
    """The first limit that a problem passes, with the counted number."""

    def __init__(self, kind, number):
        number = min(number, 2 ** 128 - 1)
        super().__init__(kind, number)
        self.kind, self.number = kind, number


# ---- limits

def reach(constraint):
    """How far a sum can lie above its bound."""
    if constraint.exact:
        return 0
    return max(sum(max(c, 0) for c, _ in constraint.terms) - constraint.bound, 0)


def slack_weights(constraint):
    """The weights of the slack bits."""
    most = reach(constraint)
    width = most.bit_length()
    return [2 ** i for i in range(width - 1)] + [most - 2 ** (width - 1) + 1] if width else []


def complements(literals):
    """How many literals are complements."""
    return sum(negated for _, negated in literals)


def products_of(problem):
    """The sets of literals of the objective and of the broken clauses."""
    clauses = [tuple((variable, not negated) for variable, negated in literals)
               for _, literals in problem.clauses]
    return [literals for _, literals in problem.objective] + clauses


def gain(problem):
    """The most that can be gained in the objective and the soft clauses."""
    return (sum(abs(c) for c, _ in problem.objective)
            + sum(weight or 0 for weight, _ in problem.clauses))


def own_upper(problem):
    """No whole cost is greater, whatever the bound."""
    return (problem.constant + sum(max(c, 0) for c, _ in problem.objective)
            + sum(weight or 0 for weight, _ in problem.clauses))


def upper(problem):
    """No bounded cost is greater."""
    return min(own_upper(problem), problem.most) if problem.most is not None else own_upper(problem)


def penalty(problem):
    """What a broken part adds at least: it lifts the least cost above all that count."""
    most = gain(problem)
    if problem.most is None:
        return most + 1
    least = own_upper(problem) - most
    return max(1, min(most + 1, problem.most - least + 1))


def pairs_of(constraint, factor):
    """What a constraint adds to the number of pairs."""
    degree = max((len(literals) for _, literals in constraint.terms), default=1)
    count = (len(constraint.terms) + len(slack_weights(constraint)) + 1) ** 2
    return factor * count * (4 * degree ** 2 if degree > 1 else 1)


def counted(problem, multilinear):
    """The numbers that have limits, in the order in which these are checked."""
    products = products_of(problem)
    sums = [[literals for _, literals in c.terms] for c in problem.constraints]
    twice = [2 * max(map(complements, row), default=0) for row in sums]
    yield 'variables', problem.variables
    yield 'degree', max((len(p) for p in products + sum(sums, [])), default=0)
    if multilinear:
        yield 'negations', max([complements(p) for p in products] + twice, default=0)
    yield 'pairs', (
        sum(len(p) ** 2 * (2 ** complements(p) if multilinear else 1) for p in products)
        + sum(pairs_of(c, 2 ** k if multilinear else 1)
              for c, k in zip(problem.constraints, twice)))
    lift = penalty(problem)
    hard = sum(weight is None for weight, _ in problem.clauses)
    spread = [sum(abs(k) for k, _ in c.terms) + abs(c.bound) + reach(c)
              for c in problem.constraints]
    yield 'weight', (abs(problem.constant) + gain(problem) + hard * lift
                     + sum(lift * d ** 2 for d in spread))


def check_limits(problem, multilinear):
    """Raises the first limit that is passed."""
    for kind, number in counted(problem, multilinear):
        if number > MOST[kind]:
            raise Limit(kind, number)


# ---- sums of products of literals

def add(table, literals, coefficient):
    """Adds to the coefficient of a set of literals."""
    total = table.get(literals, 0) + coefficient
    if total:
        table[literals] = total
    else:
        table.pop(literals, None)


def union(left, right):
    """The set of both, or none where a variable stands beside its complement."""
    both = tuple(sorted(set(left + right)))
    return None if len({variable for variable, _ in both}) < len(both) else both


def lifts(problem, scope):
    """The penalties of the hard clauses and then of the constraints, one by one."""
    most = penalty(problem)
    if scope == 'local':
        return iter([most if own is None else own for own in own_penalties(problem, most)])
    return repeat(most)


def penalties(problem, scope):
    """The table of a problem, how many nodes it has, and its slack bits by constraint."""
    lift_of, nodes, table, slacks = lifts(problem, scope), problem.variables, {}, []
    add(table, (), problem.constant)
    for coefficient, literals in problem.objective:
        add(table, literals, coefficient)
    for weight, literals in problem.clauses:
        broken = tuple((variable, not negated) for variable, negated in literals)
        add(table, broken, next(lift_of) if weight is None else weight)
    for constraint in problem.constraints:
        lift = next(lift_of)
        weights = slack_weights(constraint)
        terms = (constraint.terms + [(-constraint.bound, ())]
                 + [(-weight, ((nodes + i, False),)) for i, weight in enumerate(weights)])
        for left, one in terms:
            for right, other in terms:
                both = union(one, other)
                if both is not None:
                    add(table, both, lift * left * right)
        nodes += len(weights)
        slacks.append(weights)
    return table, nodes, slacks


def multiplied_out(table):
    """The same sum over variables alone: a complement is 1 - x."""
    out = {}
    for literals, coefficient in table.items():
        plain = [one for one in literals if not one[1]]
        turned = [(variable, False) for variable, negated in literals if negated]
        for size in range(len(turned) + 1):
            for some in combinations(turned, size):
                add(out, tuple(sorted(plain + list(some))), (-1) ** size * coefficient)
    return out


def long_terms(table):
    """The terms of three literals or more, in order."""
    return sorted(literals for literals in table if len(literals) > 2)


def by_themselves(table, nodes):
    """Long terms with new nodes of their own; and of each new node its factor, as terms."""
    factors = []
    for literals in long_terms(table):
        coefficient, degree = table.pop(literals), len(literals)
        if coefficient < 0:
            rows = [(-coefficient, degree - 1, -1)]
        else:
            rows = []
            for i in range(1, (degree - 1) // 2 + 1):
                factor = 1 if degree % 2 == 1 and 2 * i == degree - 1 else 2
                rows.append((coefficient, 2 * i * factor - 1, -factor))
            for pair in combinations(literals, 2):
                add(table, pair, coefficient)
        for size, constant, each in rows:
            node = ((nodes + len(factors), False),)
            add(table, node, size * constant)
            for one in literals:
                add(table, (one,) + node, size * each)
            factors.append((constant, each, literals))
    return factors


def by_pairs(table, nodes):
    """Long terms with new nodes for pairs of literals; and the pair of each new node."""
    pairs = []
    while True:
        left = [literals for literals in table if len(literals) > 2]
        if not left:
            return pairs
        first, second = min(left)[:2]
        node, total = (nodes + len(pairs), False), 0
        for literals in [one for one in left if first in one and second in one]:
            coefficient = table.pop(literals)
            total += abs(coefficient)
            rest = tuple(one for one in literals if one not in (first, second))
            add(table, rest + (node,), coefficient)
        add(table, (first, second), total)
        add(table, (first, node), -2 * total)
        add(table, (second, node), -2 * total)
        add(table, (node,), 3 * total)
        pairs.append((first, second))


# ---- the model

def compiled(problem, slack, bound):
    """The problem that is compiled: behind the replacement of constraints, and with its bound."""
    if slack == 'clauses' and problem.source:
        source, problem = problem.source, rewritten(problem.source, within=True)
        problem.source = source
    if slack != 'bits':
        problem = without_conflicts(problem, covers=slack == 'clauses')
    bounds = [most for most in (problem.most, bound) if most is not None]
    problem.most = min(bounds, default=None)
    return problem


class Model:
    """The model of a problem on nodes: its figures, weights and text."""

    def __init__(self, problem, keys, target):
        keys = {**USUAL, **keys}
        multilinear = keys['normal'] == 'multilinear'
        bound = None if keys['bound'] is None else int(keys['bound'])
        problem = compiled(problem, keys['slack'], bound)
        check_limits(problem, multilinear)
        self.problem, self.target = problem, target
        table, self.first, self.slacks = penalties(problem, keys['penalty'])
        if multilinear:
            table = multiplied_out(table)
        self.high = keys['high']
        lower = by_themselves if self.high == 'monomial' else by_pairs
        self.more = lower(table, self.first)
        self.nodes = self.first + len(self.more)
        self.source = problem.source or problem
        self.figure(multiplied_out(table))
        self.unit = 1
        if keys['unit'] == 'reduce':
            self.reduce()

    def figure(self, table):
        """The weights and the figures, of a table of at most two variables a term."""
        constant = table.pop((), 0)
        linear, self.couplers = dict.fromkeys(range(self.nodes), 0), {}
        for literals, coefficient in table.items():
            nodes = tuple(variable for variable, _ in literals)
            if len(nodes) == 1:
                linear[nodes[0]] = coefficient
            else:
                self.couplers[nodes] = coefficient
        self.scale = 1
        if self.target == 'ising':
            self.scale = 4
            constant = 4 * constant + 2 * sum(linear.values()) + sum(self.couplers.values())
            linear = {node: 2 * weight for node, weight in linear.items()}
            for (i, j), weight in self.couplers.items():
                linear[i] += weight
                linear[j] += weight
        self.linear = linear
        self.offset, self.threshold = -constant, self.scale * upper(self.problem) - constant

    def reduce(self):
        """Divides the weights by their greatest common divisor."""
        self.unit = gcd(*self.linear.values(), *self.couplers.values()) or 1
        self.linear = {node: weight // self.unit for node, weight in self.linear.items()}
        self.couplers = {pair: weight // self.unit for pair, weight in self.couplers.items()}

    def chain_rows(self):
        """The rows of the graph and its chains."""
        return []

    def text(self):
        """The text of the model."""
        kind = 'qubo 0' if self.target == 'qubo' else 'ising'
        rows = [f'c scale {self.scale}', f'c offset {self.offset}',
                f'c threshold {self.threshold}', f'c unit {self.unit}',
                f'c variables {self.source.variables}', *self.chain_rows(),
                f'p {kind} {self.nodes} {len(self.linear)} {len(self.couplers)}']
        rows += [f'{node} {node} {weight}' for node, weight in sorted(self.linear.items())]
        rows += [f'{i} {j} {weight}' for (i, j), weight in sorted(self.couplers.items())]
        return '\n'.join(rows) + '\n'

    def summary(self):
        """The six numbers of a sample."""
        return (f'nodes {len(self.linear)}\ncouplers {len(self.couplers)}\nscale {self.scale}\n'
                f'offset {self.offset}\nthreshold {self.threshold}\nunit {self.unit}\n')

    def size(self):
        """The nine numbers of a size."""
        weights = [*self.linear.values(), *self.couplers.values()]
        sizes = [abs(weight) for weight in weights if weight]
        return (f'{self.summary()}variables {self.source.variables}\n'
                f'least {min(sizes, default=0)}\ngreatest {max(sizes, default=0)}\n')

    def energy(self, bits):
        """The energy of a state."""
        values = [2 * bit - 1 for bit in bits] if self.target == 'ising' else bits
        return (sum(weight * values[node] for node, weight in self.linear.items())
                + sum(weight * values[i] * values[j] for (i, j), weight in self.couplers.items()))

    def read_off(self, bits):
        """The assignment that a state decodes to."""
        return bits[:self.source.variables]

    def extended(self, bits):
        """The state of an assignment of the source."""
        bits = list(bits)
        if self.problem.source:
            bits += [not kept(constraint, bits) for weight, constraint in self.source.rows
                     if weight is not None]
        for constraint, weights in zip(self.problem.constraints, self.slacks):
            bits += slack_bits(constraint, weights, bits)
        for row in self.more:
            if self.high == 'monomial':
                constant, each, literals = row
                bits.append(constant + each * sum(holds(one, bits) for one in literals) < 0)
            else:
                bits.append(all(holds(one, bits) for one in row))
        return [int(bit) for bit in bits]


def slack_bits(constraint, weights, bits):
    """The slack bits of a constraint under an assignment."""
    if not weights:
        return []
    value = min(max(value_under(constraint.terms, bits) - constraint.bound, 0), sum(weights))
    last = value > 2 ** (len(weights) - 1) - 1
    rest = value - weights[-1] * last
    return [rest >> i & 1 for i in range(len(weights) - 1)] + [last]


# ---- costs, on the source as it was read

def holds(literal, bits):
    """Whether a literal is true."""
    return bool(bits[literal[0]]) != literal[1]


def value_under(terms, bits):
    """What a sum is."""
    return sum(c for c, literals in terms if all(holds(one, bits) for one in literals))


def kept(constraint, bits):
    """Whether a constraint holds."""
    value = value_under(constraint.terms, bits)
    return value == constraint.bound if constraint.exact else value >= constraint.bound


def cost(problem, bits):
    """What an assignment costs in the source; none where that is infinite."""
    if problem.source:
        broken = [weight for weight, constraint in problem.source.rows
                  if not kept(constraint, bits)]
        if None in broken:
            return None
        top = problem.source.top
        return None if top is not None and sum(broken) >= top else sum(broken)
    broken = [weight for weight, literals in problem.clauses
              if not any(holds(one, bits) for one in literals)]
    if None in broken or not all(kept(constraint, bits) for constraint in problem.constraints):
        return None
    return problem.constant + value_under(problem.objective, bits) + sum(broken)

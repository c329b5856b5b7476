#!/usr/bin/env python3
"""Writes a random file of a kind to the standard output.

    generate.py KIND SIZE [--seed N] [--clauses] [--variables N] [--headerless]

A weighted CNF:

    KIND    literals of a clause    SIZE
    unit    1                       bytes, which the text comes close to and never passes
    pair    2                       bytes
    three   3                       bytes
    forty   40                      clauses, of which at most 10,485 are written
    wide    1,024                   clauses, of which at most 16 are written
    mixed   1 to 12                 clauses, of which at most 116,508 are written
    front   64                      clauses, of which at most 4,000 are written
    hub     3                       bytes
    empty   0                       clauses, of which at most 4,000,000 are written

Clauses of `front` differ in their last two literals alone, and each of `hub` has the first variable.
With --clauses SIZE is the number of clauses for every kind. One clause in eight is hard, the others
weigh 1 to 9. Without --variables there are about ten clauses for each variable; for `forty` and
`wide` as many variables as clauses, and at least four times as many as a clause has literals.
`mixed` is laid out like a file of a MaxSAT evaluation, with comments and the hard clauses first: half
of its clauses are hard and have 2 to 12 literals, the soft ones have 1 to 12 and weigh 1 to 1,000.
With --headerless the text is in the layout of 2022: without the `p` line, and `h` in place of the
weight of a hard clause. The clauses are the same.

A 0-1 program in OPB, with an objective over all variables of weights 1 to 9, which are below 0 for
knapsacks and conflicts:

    covers      at least one of three variables               bytes; at most 15,900,000 are written
    equations   four of eight variables                       bytes; at most 15,000,000 are written
    sacks       knapsacks of 14 items, at most half of them   bytes; at most 5,000,000 are written
    implications    one variable with another, in 12 layers   bytes; at most 15,900,000 are written
    sack        one knapsack                                  items, of which at most 4,080 are taken
    conflicts   at most one of 1,000 variables                constraints, at most 2,140

With `slack=pairs` four of the conflicts become pairs, and 12 are within the limits.

A polynomial, with coefficients -9 to 9 without 0, and a complement once in four in a quartic product:

    quartic     products of four of at most 5,000 names       bytes; at most 16,700,000 are written
    names       products of one name each, all different      products, of which at most 2^20 are taken
    tails       products of 64 names, the first 62 of them    products, of which at most 4,000 are taken
                the same in all

A QUBO with weights -9 to 9 without 0, or what is read beside one:

    path        nodes in a row, the first 900,000 of them coupled    nodes
    band        nodes in a row, each coupled to the next 16          nodes
    order       the nodes of `band` from one end of the row on       nodes
    sparse      20 couplers for each node                            nodes
    states      10,000 states                                        nodes

The row of `band` goes through the nodes at random, the same for one SIZE and seed. One seed gives one
text, and but for conflicts each text is within the program's limits.
"""
import argparse
import random
import sys
from functools import partial

MOST_BYTES = 1 << 24
MOST_VARIABLES = 1 << 20

# ---- clauses

DEGREES = {
    'unit': 1, 'pair': 2, 'three': 3, 'forty': 40, 'wide': 1024, 'mixed': 12, 'front': 64, 'hub': 3,
    'empty': 0,
}
IN_BYTES = {'unit', 'pair', 'three', 'hub'}
MOST_CLAUSES = {'front': 4000, 'empty': 4_000_000}
TOP = 1000000
MOST_PAIRS = 1 << 24    # of the sum of the squares of the numbers of literals
HEADER_BYTES = 36       # no header within the limits is longer
CLAUSE_BYTES = 16       # of most clauses that are counted in bytes, about


def clause(weight, literals):
    return ' '.join(map(str, (weight, *literals, 0))) + '\n'


def signed(source, variables):
    return [source.choice((1, -1)) * variable for variable in variables]


def drawn_clause(source, weight, degree, variables):
    """A random clause."""
    return clause(weight, signed(source, source.sample(range(1, variables + 1), degree)))


def clause_of_hub(source, weight, degree, variables):
    """A clause that has the first variable."""
    others = source.sample(range(2, variables + 1), degree - 1)
    return clause(weight, [-1, *signed(source, others)])


def clause_of_front(number, weight, degree):
    """The clause of this number: all but two literals are those of each other one."""
    front = range(1, degree - 1)
    last = (degree - 1 + number // 64, degree + 70 + number % 64)
    return clause(weight, [-variable for variable in (*front, *last)])


def clause_of(source, kind, number, weight, variables):
    degree = DEGREES[kind]
    if kind == 'hub':
        return clause_of_hub(source, weight, degree, variables)
    if kind == 'front':
        return clause_of_front(number, weight, degree)
    return drawn_clause(source, weight, degree, variables)


def weight_of(source, kind):
    """TOP for one clause in eight, else 1 to 9. Clauses without literals are all soft."""
    if kind != 'empty' and source.randrange(8) == 0:
        return TOP
    return source.randint(1, 9)


def clauses_of(source, kind, variables, most_bytes, most_clauses):
    """Clauses, up to the first that would pass one of the two bounds."""
    result, size = [], HEADER_BYTES
    while len(result) < most_clauses:
        weight = weight_of(source, kind)
        text = clause_of(source, kind, len(result), weight, variables)
        size += len(text)
        if size > most_bytes:
            break
        result.append(text)
    return result


def mixed_parts(source, degree, variables, clauses):
    """Hard clauses and then as many soft ones, each under a comment."""
    hard = clauses // 2
    yield f'c {hard} hard clauses\n'
    for _ in range(hard):
        yield drawn_clause(source, TOP, source.randint(2, degree), variables)
    yield f'c {clauses - hard} soft clauses\n'
    for _ in range(clauses - hard):
        yield drawn_clause(source, source.randint(1, 1000), source.randint(1, degree), variables)


def marked(text):
    """A clause in the layout of 2022: `h` in place of the weight TOP."""
    weight, rest = text.split(' ', 1)
    return f'h {rest}' if weight == str(TOP) else text


def usual_variables(kind, clauses):
    """The number of variables that is taken where none is given."""
    if kind in ('forty', 'wide'):
        return max(clauses, 4 * DEGREES[kind])
    return 4 * DEGREES[kind] if kind == 'front' else clauses // 10


def write_clauses(kind, source, given):
    degree = DEGREES[kind]
    in_bytes = kind in IN_BYTES and not given.clauses
    most_bytes = min(given.size, MOST_BYTES) if in_bytes else MOST_BYTES
    most_clauses = min(given.size, MOST_CLAUSES.get(kind, MOST_PAIRS // max(degree, 1) ** 2))
    expected = most_bytes // CLAUSE_BYTES if in_bytes else most_clauses
    variables = given.variables or usual_variables(kind, expected)
    variables = min(max(variables, degree), MOST_VARIABLES)
    if kind == 'mixed':
        count, body = most_clauses, mixed_parts(source, degree, variables, most_clauses)
        sys.stdout.write(f'c random clauses of 1 to {degree} literals, seed {given.seed}\n')
    else:
        body = clauses_of(source, kind, variables, most_bytes, most_clauses)
        count = len(body)
    if given.headerless:
        sys.stdout.writelines(map(marked, body))
    else:
        sys.stdout.write(f'p wcnf {variables} {count} {TOP}\n')
        sys.stdout.writelines(body)


# ---- 0-1 programs

MOST_ITEMS = 4080    # with its slack bits the square of a knapsack has 2^24 pairs at most
MOST_CONFLICTS = 2140    # in 2^24 bytes
LAYERS = 12


def terms(weights, variables):
    """A sum."""
    return ' '.join(f'{weight} x{variable + 1}' for weight, variable in zip(weights, variables))


def objective(source, variables, sign):
    """A sum over all variables that is to be least."""
    weights = (sign * source.randint(1, 9) for _ in range(variables))
    return f'min: {terms(weights, range(variables))} ;\n'


def cover(source, variables):
    return f'{terms((1, 1, 1), source.sample(range(variables), 3))} >= 1 ;\n'


def equation(source, variables):
    return f'{terms([1] * 8, source.sample(range(variables), 8))} = 4 ;\n'


def knapsack(source, items):
    weights = [source.randint(1, 9) for _ in items]
    return f'{terms(weights, items)} <= {sum(weights) // 2} ;\n'


def knapsack_of_14(source, variables):
    return knapsack(source, source.sample(range(variables), 14))


def implication(source, variables):
    """From a layer to the next."""
    width = variables // LAYERS
    first = source.randrange(LAYERS - 1) * width
    pair = first + source.randrange(width), first + width + source.randrange(width)
    return f'{terms((-1, 1), pair)} >= 0 ;\n'


# Of each kind: a constraint, the most variables, the sign of the objective's weights, and the most
# bytes, since more would pass the limit on pairs.
CONSTRAINTS = {
    'covers': (cover, 60_000, 1, 15_900_000),
    'equations': (equation, 60_000, 1, 15_000_000),
    'sacks': (knapsack_of_14, 20_000, -1, 5_000_000),
    'implications': (implication, 60_000, 1, 15_900_000),
}


def write_until(most, size, lines):
    """Writes lines, up to the first with which the text would pass the bound."""
    for line in lines:
        size += len(line)
        if size > most:
            return
        sys.stdout.write(line)


def write_constraints(kind, source, given):
    """Constraints of a kind."""
    make, most_variables, sign, most = CONSTRAINTS[kind]
    most = min(given.size, most)
    variables = max(16, min(most_variables, most // 100))
    head = objective(source, variables, sign)
    sys.stdout.write(head)
    write_until(most, len(head), iter(partial(make, source, variables), None))


def write_sack(source, given):
    items = min(given.size, MOST_ITEMS)
    sys.stdout.write(objective(source, items, -1))
    sys.stdout.write(knapsack(source, range(items)))


def write_conflicts(source, given):
    """Conflicts of 1,000 of 5,000 variables."""
    sys.stdout.write(objective(source, 5000, -1))
    for _ in range(min(given.size, MOST_CONFLICTS)):
        sys.stdout.write(f'{terms([1] * 1000, source.sample(range(5000), 1000))} <= 1 ;\n')


# ---- polynomials

MOST_POLY_BYTES = 16_700_000
MOST_TAILS = 4_000
FRONT = 62


def nonzero(source):
    return source.choice((-1, 1)) * source.randint(1, 9)


def quartic_lines(source, names):
    """Products of four names, without an end."""
    while True:
        literals = (f'{source.choice(("~", "", "", ""))}v{name}'
                    for name in source.sample(range(names), 4))
        yield f'{nonzero(source)} {" ".join(literals)}\n'


def write_quartic(source, given):
    most = min(given.size, MOST_POLY_BYTES)
    write_until(most, 0, quartic_lines(source, max(16, min(5_000, most // 200))))


def write_names(source, given):
    for name in range(min(given.size, MOST_VARIABLES)):
        sys.stdout.write(f'{nonzero(source)} n{name}\n')


def write_tails(source, given):
    """Pairs of two of 100 names, behind the same names."""
    front = ' '.join(f'f{name}' for name in range(FRONT))
    pairs = [(i, j) for j in range(100) for i in range(j)]
    for first, second in pairs[:min(given.size, MOST_TAILS)]:
        sys.stdout.write(f'{nonzero(source)} {front} t{first} t{second}\n')


# ---- models

COUPLED, WIDTH, DEGREE, STATES = 900_000, 16, 20, 10_000


def write_qubo(source, nodes, fields, pairs):
    """A QUBO with an entry for each of the nodes and the pairs."""
    sys.stdout.write(f'p qubo 0 {nodes} {len(fields)} {len(pairs)}\n')
    for i, j in [(i, i) for i in fields] + pairs:
        sys.stdout.write(f'{i} {j} {nonzero(source)}\n')


def row(source, nodes):
    """The nodes as they stand in the row of a band."""
    return source.sample(range(nodes), nodes)


def write_path(source, given):
    nodes = given.size
    write_qubo(source, nodes, [], [(i, i + 1) for i in range(min(COUPLED, nodes - 1))])


def write_band(source, given):
    nodes = given.size
    place = row(source, nodes)
    pairs = [(place[i], place[j]) for i in range(nodes)
             for j in range(i + 1, min(i + WIDTH + 1, nodes))]
    write_qubo(source, nodes, range(nodes), pairs)


def write_order(source, given):
    sys.stdout.writelines(f'{node}\n' for node in row(source, given.size))


def write_sparse(source, given):
    nodes, pairs = given.size, set()
    while len(pairs) < DEGREE * nodes:
        pairs.add(tuple(sorted(source.sample(range(nodes), 2))))
    write_qubo(source, nodes, range(nodes), sorted(pairs))


def write_states(source, given):
    for _ in range(STATES):
        sys.stdout.write(f'{source.getrandbits(given.size):0{given.size}b}\n')


# ---- all kinds

KINDS = {
    **{kind: ('wcnf', partial(write_clauses, kind)) for kind in DEGREES},
    **{kind: ('opb', partial(write_constraints, kind)) for kind in CONSTRAINTS},
    'sack': ('opb', write_sack), 'conflicts': ('opb', write_conflicts),
    'quartic': ('poly', write_quartic), 'names': ('poly', write_names),
    'tails': ('poly', write_tails),
    'path': ('qubo', write_path), 'band': ('qubo', write_band), 'sparse': ('qubo', write_sparse),
    'order': ('order', write_order), 'states': ('states', write_states),
}


def main():
    parser = argparse.ArgumentParser(description='see the head of this file')
    parser.add_argument('kind', choices=KINDS, metavar='KIND')
    parser.add_argument('size', type=int, metavar='SIZE')
    parser.add_argument('--clauses', action='store_true')
    parser.add_argument('--seed', type=int, default=1)
    parser.add_argument('--variables', type=int)
    parser.add_argument('--headerless', action='store_true')
    given = parser.parse_args()
    KINDS[given.kind][1](random.Random(given.seed), given)


if __name__ == '__main__':
    main()

"""Small problems of each format, as texts, by a generator of random numbers: with parts that have
penalties of their own beside others that have none."""
LAYOUTS = ('wcnf', 'opb', 'wbo', 'poly', 'qubo', 'ising')
VARIABLES = 3


def literal(draw, index, complement='~x', plain='x'):
    """A variable or its complement."""
    return f'{complement if draw.random() < 0.3 else plain}{index}'


def indices(draw, least=1):
    """Some variables, in any order."""
    return draw.sample(range(1, VARIABLES + 1), draw.randint(least, VARIABLES))


def condition(draw):
    """A cover, a conflict, an implication, a sum with sizes, or an equation."""
    kind, chosen = draw.randrange(6), indices(draw, 2)
    ones = ' '.join(f'1 {literal(draw, index)}' for index in chosen)
    if kind == 0:
        return f'{ones} >= 1 ;'
    if kind == 1:
        return f'{ones} <= 1 ;'
    if kind == 2:
        return f'1 x{chosen[0]} -1 x{chosen[1]} >= 0 ;'
    if kind == 3:
        return f'{ones} = {draw.randint(0, 2)} ;'
    sizes = ' '.join(f'{draw.choice((-2, 1, 2, 3))} {literal(draw, index)}' for index in chosen)
    return f'{sizes} {draw.choice((">=", "<=", "="))} {draw.randint(-1, 3)} ;'


def wcnf(draw):
    """Hard clauses of literals that are mostly plain, and soft units."""
    rows = [f'{9 if draw.random() < 0.5 else draw.randint(1, 4)} '
            + ' '.join(literal(draw, index, '-', '') for index in indices(draw)) + ' 0'
            for _ in range(4)]
    return '\n'.join([f'p wcnf {VARIABLES} 4 9', *rows]) + '\n'


def opb(draw):
    """An objective and up to three conditions."""
    costs = ' '.join(f'{draw.randint(-3, 6)} x{index}' for index in range(1, VARIABLES + 1))
    rows = [condition(draw) for _ in range(draw.randint(1, 3))]
    return '\n'.join([f'min: {costs} ;', *rows]) + '\n'


def wbo(draw):
    """A soft condition or two, and a hard one or none."""
    rows = [f'[{draw.randint(1, 9)}] {condition(draw)}' for _ in range(draw.randint(1, 2))]
    rows += [condition(draw)] * draw.randint(0, 1)
    return '\n'.join([f'soft: {draw.choice(("", "3 ", "6 "))};', *rows]) + '\n'


def poly(draw):
    """Products of names."""
    rows = [' '.join([str(draw.randint(-4, 4)),
                      *(('~' if draw.random() < 0.3 else '') + 'abc'[index - 1] for index in indices(draw))])
            for _ in range(4)]
    return '\n'.join(rows) + '\n'


def rows_of(kind, draw):
    """A file of nodes and couplers."""
    nodes = [f'{node} {node} {draw.randint(-3, 3)}' for node in range(VARIABLES)]
    pairs = [f'{i} {j} {draw.randint(-3, 3)}' for i, j in ((0, 1), (0, 2), (1, 2))]
    head = 'p qubo 0' if kind == 'qubo' else 'p ising'
    return '\n'.join([f'{head} {VARIABLES} {len(nodes)} {len(pairs)}', *nodes, *pairs]) + '\n'


def problem(layout, draw):
    """A text of a format."""
    if layout in ('qubo', 'ising'):
        return rows_of(layout, draw)
    return {'wcnf': wcnf, 'opb': opb, 'wbo': wbo, 'poly': poly}[layout](draw)

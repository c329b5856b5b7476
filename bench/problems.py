"""Problems that users bring, drawn with fixed seeds.

    for name, layout, text in problems(): ..
"""
import random
from itertools import combinations


def total(terms):
    """A sum of weights and variables."""
    return ' '.join(f'{weight:+d} {variable}' for weight, variable in terms)


def objective(terms):
    """A sum that is to be least."""
    return f'min: {total(terms)} ;\n'


def at_least(bound, *terms):
    """A constraint."""
    return f'{total(terms)} >= {bound} ;\n'


def exactly(bound, *terms):
    """An equation."""
    return f'{total(terms)} = {bound} ;\n'


def drawn_edges(draw, nodes, count):
    """Edges of a graph whose nodes are counted from 1."""
    return sorted(draw.sample(list(combinations(range(1, nodes + 1), 2)), count))


def independent_set():
    """As many of 150 nodes as have no edge between two."""
    edges = drawn_edges(random.Random(1), 150, 600)
    goal = objective((-1, f'x{node}') for node in range(1, 151))
    return goal + ''.join(at_least(-1, (-1, f'x{i}'), (-1, f'x{j}')) for i, j in edges)


def vertex_cover():
    """Nodes of 100 at each edge, of least weight."""
    draw = random.Random(2)
    goal = objective((draw.randint(1, 20), f'x{node}') for node in range(1, 101))
    edges = drawn_edges(draw, 100, 250)
    return goal + ''.join(at_least(1, (1, f'x{i}'), (1, f'x{j}')) for i, j in edges)


def dominating_set(size=9):
    """Squares of a board, so that each is one or lies beside one."""
    lines = [objective((1, f'x{square}') for square in range(1, size * size + 1))]
    for i in range(size):
        for j in range(size):
            near = [(i, j), (i - 1, j), (i + 1, j), (i, j - 1), (i, j + 1)]
            lines.append(at_least(1, *((1, f'x{p * size + q + 1}') for p, q in near
                                       if 0 <= p < size and 0 <= q < size)))
    return ''.join(lines)


def set_cover():
    """Sets of 40 that have all of 60 elements, of least cost."""
    draw = random.Random(4)
    lines = [objective((draw.randint(5, 40), f'x{one}') for one in range(1, 41))]
    for _ in range(60):
        having = draw.sample(range(1, 41), draw.randint(2, 8))
        lines.append(at_least(1, *((1, f'x{one}') for one in sorted(having))))
    return ''.join(lines)


def roster(top=''):
    """Six people in two shifts of seven days: who rests when, who is there, and what they wish."""
    draw = random.Random(5)
    people, shifts = range(6), range(14)

    def works(person, shift):
        return f'x{person * 14 + shift + 1}'
    lines = [f'soft: {top} ;\n']
    for person in people:
        for shift in shifts[:-1]:
            lines.append(at_least(-1, (-1, works(person, shift)), (-1, works(person, shift + 1))))
    for shift in shifts:
        lines.append('[10] ' + at_least(1, *((1, works(person, shift)) for person in people)))
    for person in people:
        for shift in sorted(draw.sample(shifts, 4)):
            lines.append(f'[{draw.randint(1, 5)}] ' + at_least(0, (-1, works(person, shift))))
    return ''.join(lines)


def facilities(sites=8, customers=20):
    """Sites that are opened, and one of them at least for each customer, of least cost."""
    draw = random.Random(6)

    def serves(site, customer):
        return f'x{sites + site * customers + customer + 1}'
    pairs = [(site, customer) for site in range(sites) for customer in range(customers)]
    goal = [(draw.randint(60, 120), f'x{site + 1}') for site in range(sites)]
    goal += [(draw.randint(2, 60), serves(*pair)) for pair in pairs]
    lines = [objective(goal)]
    for customer in range(customers):
        lines.append(at_least(1, *((1, serves(site, customer)) for site in range(sites))))
    lines += [at_least(0, (1, f'x{site + 1}'), (-1, serves(site, customer))) for site, customer in pairs]
    return ''.join(lines)


def projects():
    """Projects of 30 that pay, with the tools of 20 that they need."""
    draw = random.Random(7)
    goal = [(-draw.randint(5, 40), f'x{project}') for project in range(1, 31)]
    goal += [(draw.randint(5, 30), f'x{tool}') for tool in range(31, 51)]
    lines = [objective(goal)]
    for project in range(1, 31):
        lines += [at_least(0, (1, f'x{tool}'), (-1, f'x{project}'))
                  for tool in sorted(draw.sample(range(31, 51), draw.randint(1, 4)))]
    return ''.join(lines)


def soft_colouring(nodes=30, colours=4):
    """A colour for each node; an edge of one colour has a price."""
    draw = random.Random(8)

    def has(node, colour):
        return f'x{(node - 1) * colours + colour + 1}'
    edges = drawn_edges(draw, nodes, 75)
    goal = [(weight, f'{has(i, colour)} {has(j, colour)}') for i, j in edges
            for weight in [draw.randint(1, 15)] for colour in range(colours)]
    lines = [objective(goal)]
    for node in range(1, nodes + 1):
        lines.append(exactly(1, *((1, has(node, colour)) for colour in range(colours))))
    return ''.join(lines)


def problems():
    """A name, a format and a text of each."""
    yield 'independent set of 150 nodes', 'opb', independent_set()
    yield 'vertex cover of 100, with weights', 'opb', vertex_cover()
    yield 'dominating set of a 9 x 9 board', 'opb', dominating_set()
    yield 'set cover, 60 by 40', 'opb', set_cover()
    yield 'roster in WBO', 'wbo', roster()
    yield 'the same with TOP 30', 'wbo', roster('30')
    yield 'facility location, 8 by 20', 'opb', facilities()
    yield 'project selection of 30', 'opb', projects()
    yield 'soft colouring of 30 nodes, 4 colours', 'opb', soft_colouring()

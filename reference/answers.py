"""Works out what a command answers: a second program beside the run of the first.

    status, output, line = work_out(words, files)    # files are names with their bytes

It knows no help, takes `solve` of small models alone, and of `prove` what is proved: of all else it
raises OfAnotherKind.
"""
import re

from chains import Chimera, NotEmbedded, Placed, read_graph, read_map
from optima import certified, first_least, first_wide, read_order
from readings import READERS, Fault, read_source
from translation import Limit, Model, cost

MOST_BYTES, MOST_QUBITS, MOST_CLAUSES = 2 ** 24, 2 ** 20, 100_000
VALUES = {'normal': ('literal', 'multilinear'), 'high': ('monomial', 'rosenberg'),
          'unit': ('one', 'reduce'), 'slack': ('bits', 'pairs', 'clauses'),
          'penalty': ('global', 'local'), 'chain': ('choi', 'cut'), 'embed': ('clique',)}
SIZES = ('rows', 'cols', 'shore')
OF_ALL = ('normal', 'high', 'unit', 'slack', 'penalty', 'bound')
OF_TARGET = {'qubo': (), 'ising': (), 'graph': ('graph', 'map', 'chain'),
             'chimera': (*SIZES, 'embed', 'map', 'dead', 'chain')}
OTHERS = {'compile': 0, 'size': 0, 'solve': 0, 'decode': 1, 'evaluate': 1, 'extend': 1, 'prove': 2}


class OfAnotherKind(Exception):
    """A run that is not worked out."""


class Stop(Exception):
    """The status with which a run ends, and its line."""


# ---- words

def refuse(number):
    """The number of the first word that asks for nothing."""
    raise Stop(2, f'usage: word {number}')


def is_number(text, most):
    """Whether a text is digits of a value that is not above another."""
    digits = text.lstrip('0')
    return bool(re.fullmatch('[0-9]+', text, re.A)) and len(digits) <= 20 and int(digits or '0') <= most


def is_good(key, value):
    """Whether a key has this value."""
    if key == 'bound':
        return is_number(value.removeprefix('-'), 2 ** 64 - 1)
    if key in SIZES:
        return is_number(value, MOST_QUBITS) and int(value) > 0
    return key not in VALUES or value in VALUES[key]


def keys_of(words, first, target, command=''):
    """The keys of a model, of the words of a command from a number on."""
    taken = OF_ALL + OF_TARGET[target] + (('order',) if command == 'solve' else ())
    keys = {}
    for number, word in enumerate(words, first):
        key, sign, value = word.partition('=')
        second = {'embed': 'map', 'map': 'embed'}.get(key) in keys
        if not sign or key in keys or key not in taken or second or not is_good(key, value):
            refuse(number)
        keys[key] = value
    sized = target != 'chimera' or {*SIZES} <= {*keys} and ('embed' in keys or 'map' in keys) \
        and 2 * int(keys['rows']) * int(keys['cols']) * int(keys['shore']) <= MOST_QUBITS
    if not sized or target == 'graph' and not {'graph', 'map'} <= {*keys}:
        refuse(first + len(words))
    return keys


# ---- files and models

def take(files, name):
    """The bytes of a file."""
    if name not in files:
        raise Stop(3, f'cannot read {name}')
    if len(files[name]) > MOST_BYTES:
        raise Stop(6, f'{name}: limit bytes {MOST_BYTES + 1}')
    return files[name]


def read(reader, name, *given):
    """What a text of a file is read as."""
    try:
        return reader(*given)
    except Fault as fault:
        raise Stop(5, f'{name}:{fault.line}: {fault.kind}') from None


def graph_of(keys, files):
    """The graph of a command."""
    if 'graph' in keys:
        return read(read_graph, keys['graph'], take(files, keys['graph']))
    graph = Chimera(*(int(keys[key]) for key in SIZES))
    if 'dead' in keys:
        read(graph.without, keys['dead'], take(files, keys['dead']))
    return graph


def model(problem, name, keys, target, files):
    """The model of a problem."""
    on_graph = target in ('graph', 'chimera')
    chosen = {key: keys[key] for key in OF_ALL if key in keys}
    if on_graph:
        chosen.pop('unit', None)
    try:
        made = Model(problem, chosen, 'ising' if on_graph else target)
    except Limit as limit:
        raise Stop(6, f'{name}: limit {limit.kind} {limit.number}') from None
    if not on_graph:
        return made
    graph = graph_of(keys, files)
    chains = read(read_map, keys['map'], take(files, keys['map'])) if 'map' in keys else None
    try:
        chains = graph.cliques(made.nodes) if chains is None else chains
        made = Placed(made, graph, chains, keys.get('chain', 'choi'))
    except NotEmbedded as fault:
        raise Stop(7, f'not embedded: {fault}') from None
    if keys.get('unit') == 'reduce':
        made.reduce()
    return made


def sample_text(number, clauses):
    """The text of a sample."""
    state = 1 + number % 2147483646

    def draw():
        nonlocal state
        state = 16807 * state % 2147483647
        return state

    variables, top = 3 + clauses // 4, 10 * clauses + 1
    rows = [f'p wcnf {variables} {clauses} {top}']
    for _ in range(clauses):
        first = draw()
        row = [top if first % 8 == 0 else 1 + first % 9]
        for _ in range(3):
            variable = 1 + draw() % variables
            row.append(-variable if draw() % 2 else variable)
        rows.append(' '.join(map(str, row + [0])))
    return ('\n'.join(rows) + '\n').encode()


# ---- what is written

def bits_of(text, length):
    """The first line of a state's file that is one, as bits."""
    for line in text.split(b'\n'):
        line = line.strip(b' \t\r')
        if len(line) == length and not line.strip(b'01+-'):
            return [int(byte in b'1+') for byte in line]
    return None


def no_state(name, count):
    """That no line of a file is one."""
    raise Stop(8, f'{name}: no state of {count} characters')


def told_cost(found):
    """A cost as it is written."""
    return 'infinite' if found is None else found


def costs(made, bits, energy):
    """The rows of a cost and an energy."""
    return f'cost {told_cost(cost(made.problem, bits))}\nenergy {energy}\n'


def told(made, chosen):
    """The rows of an assignment."""
    names = ''.join(f'name {each} {bit}\n' for each, bit in zip(made.problem.names, chosen))
    return f'assignment {"".join(map(str, chosen))}\n{names}'


def optimum(made, state):
    """The rows of a state that is least: its energy, and the optimum or that there is none."""
    chosen = made.read_off(state)
    found = cost(made.problem, chosen)
    out = f'energy {made.energy(state)}\n'
    if found is None or made.problem.most is not None and found > made.problem.most:
        return out + 'infeasible\n'
    return f'{out}{told(made, chosen)}optimum {found}\n'


def solved(made, order=None):
    """What `solve` writes for a small model."""
    state = first_least(made, order)
    if state is None:
        raise OfAnotherKind
    return f'state {"".join(map(str, state))}\n{optimum(made, state)}'


def solved_by(made, name, text):
    """What `solve` writes with the order of a file."""
    order = read(read_order, name, made, text)
    wide = first_wide(made, order)
    if wide:
        raise Stop(11, f'too wide: node {wide[0]} has {wide[1]} neighbours')
    return solved(made, order)


def evaluated(made, name, text):
    """What `evaluate` writes."""
    rows, best = [], None
    for number, line in enumerate(text.split(b'\n'), 1):
        bits = bits_of(line, made.nodes)
        if bits is not None:
            found, energy = cost(made.problem, made.read_off(bits)), made.energy(bits)
            rows.append(f'sample {number} cost {told_cost(found)} energy {energy}\n')
            score = (found is None, found or 0, energy)
            if best is None or score < best[0]:
                best = score, number, bits
    if best is None:
        no_state(name, made.nodes)
    _, number, bits = best
    chosen = made.read_off(bits)
    return f'{"".join(rows)}best {number}\n{told(made, chosen)}{costs(made, chosen, best[0][2])}'


def answer(command, made, names, files):
    """What is written for a state or an assignment of a file."""
    count = made.source.variables if command == 'extend' else made.nodes
    bits = bits_of(take(files, names[0]), count)
    if bits is None:
        no_state(names[0], count)
    if command == 'prove':
        if not certified(made, bits, take(files, names[1])):
            raise OfAnotherKind
        return optimum(made, bits)
    if command == 'extend':
        state = made.extended(bits)
        return f'state {"".join(map(str, state))}\n{costs(made, bits, made.energy(state))}'
    chosen = made.read_off(bits)
    return told(made, chosen) + costs(made, chosen, made.energy(bits))


# ---- commands

def of_source(words, files):
    """What the words of a command with a source write."""
    command, layout, target, name, *rest = words
    names = rest[:OTHERS[command]]
    keys = keys_of(rest[len(names):], 5 + len(names), target, command)
    problem = read(read_source, name, layout, take(files, name))
    made = model(problem, name, keys, target, files)
    if command == 'solve':
        order = keys.get('order')
        return solved(made) if order is None else solved_by(made, order, take(files, order))
    if command == 'evaluate':
        return evaluated(made, names[0], take(files, names[0]))
    if names:
        return answer(command, made, names, files)
    return made.text() if command == 'compile' else made.size()


def of_sample(number, clauses, target, words, files):
    """What `sample` writes."""
    keys = keys_of(words, 5, target)
    problem = read_source('wcnf', sample_text(number, clauses))
    return model(problem, '', keys, target, files).summary()


def written(words, files):
    """What a command writes; words behind the first that are wrong come first."""
    command = words[0] if words else ''
    if command == 'sample':
        kinds = [lambda word: is_number(word, 2 ** 64 - 1), lambda word: is_number(word, MOST_CLAUSES),
                 OF_TARGET.__contains__]
    elif command in OTHERS:
        kinds = [READERS.__contains__, OF_TARGET.__contains__] + [str] * (1 + OTHERS[command])
    else:
        raise OfAnotherKind
    for number, (is_one, word) in enumerate(zip(kinds, words[1:]), 2):
        if is_one is not str and not is_one(word):
            refuse(number)
    if len(words) <= len(kinds):
        refuse(len(words) + 1)
    if command == 'sample':
        return of_sample(int(words[1]), int(words[2]), words[3], words[4:], files)
    return of_source(words, files)


def work_out(words, files):
    """Status, output and line of a run. Of two files of a name the first counts."""
    try:
        return 0, written(words, dict(reversed(files))), ''
    except Stop as stop:
        status, line = stop.args
        return status, '', line + '\n'

"""Measures the target `graph` beside `ising`, on graphs of annealers and on one of 2^20 qubits.

Of each form a row says what three commands take with `ising` and beyond that with `graph`, in
milliseconds of the processor. `decode` gets a state in which the last qubit of each chain of two or
more is turned; `held` says that it decodes to the same assignment all the same. `solve` is told by a
dash where the model is too wide for it.
"""
import os
import random
import subprocess
import tempfile

from timing import peak, run
from topologies import cut_up, embedded, neighbours, pegasus, zephyr

CHIPS = (('P16', pegasus, 16, 5640, 40484), ('Z15', zephyr, 15, 7440, 71736))
MOST_MILLISECONDS, MOST_SECONDS, MOST_MB = 50, 2, 200
MOST_BYTES, MOST_QUBITS = 2 ** 24, 2 ** 20
ROW = '{:<4} {:<6} {:>6} {:>7} {:>7} {:>8} {:>7} {:>8} {:>7} {:>8} {:>7} {:>5}'
HEADING = ROW.format('chip', 'form', 'nodes', 'qubits', 'longest', 'compile', 'beyond', 'decode',
                     'beyond', 'solve', 'beyond', 'held')

# ---- forms


def path(draw):
    """Nodes in a row, as a polynomial."""
    lines = [f'{draw.choice((-3, -2, 2, 3))} v{i} v{i + 1}\n' for i in range(199)]
    return 'poly', ''.join(lines) + ''.join(f'{draw.randint(-4, 4)} v{i}\n' for i in range(200))


def independent(draw):
    """An independent set of a graph of 120 nodes."""
    edges = sorted({tuple(sorted(draw.sample(range(1, 121), 2))) for _ in range(180)})
    goal = ' '.join(f'-1 x{node}' for node in range(1, 121))
    return 'opb', f'min: {goal} ;\n' + ''.join(f'-1 x{i} -1 x{j} >= -1 ;\n' for i, j in edges)


def knapsack(draw):
    """A knapsack of 12 items: with its slack bits a clique."""
    values = ' '.join(f'-{draw.randint(1, 9)} x{item}' for item in range(1, 13))
    sizes = ' '.join(f'-{draw.randint(1, 9)} x{item}' for item in range(1, 13))
    return 'opb', f'min: {values} ;\n{sizes} >= -31 ;\n'


FORMS = (('path', path, ()), ('set', independent, ('slack=pairs',)), ('sack', knapsack, ()))


def written(folder, name, lines):
    """A file of a folder."""
    place = os.path.join(folder, name)
    with open(place, 'w', encoding='ascii') as file:
        file.writelines(lines)
    return place


def map_file(folder, chains):
    """The file of a map."""
    return written(folder, 'map', (f'{node} {" ".join(map(str, chain))}\n'
                                   for node, chain in enumerate(chains)))


def on_ising(program, words):
    """The nodes and the coupled pairs of a model."""
    done = subprocess.run([program, 'compile', words[0], 'ising', *words[1:]], check=True,
                          capture_output=True, encoding='ascii')
    rows = done.stdout.split('p ising ')[1].split('\n')
    pairs = [tuple(map(int, row.split()[:2])) for row in rows[1:] if row]
    return int(rows[0].split()[0]), [(i, j) for i, j in pairs if i != j]


def whole(folder, couplers, draw):
    """A form that takes all qubits in chains of at most four, and its chains."""
    chains, pairs = cut_up(couplers, 4, draw)
    lines = [f'p ising {len(chains)} 0 {len(pairs)}\n']
    lines += [f'{i} {j} {draw.choice((-1, 1))}\n' for i, j in pairs]
    return ('ising', written(folder, 'whole', lines)), chains


def forms(program, folder, couplers):
    """A name, the words of a source, and chains for it."""
    for name, make, keys in FORMS:
        draw = random.Random(3)
        layout, text = make(draw)
        words = (layout, written(folder, name, text), *keys)
        nodes, pairs = on_ising(program, words)
        chains = embedded(pairs, nodes, couplers, draw)
        if chains is None:
            print(name, 'is not embedded')
        else:
            yield name, words, chains
    yield 'whole', *whole(folder, couplers, random.Random(3))


# ---- measures


class Runs:
    """The commands of a form, on spins and on a graph."""

    def __init__(self, given, words, on_graph):
        self.given, self.words, self.on_graph = given, words, on_graph

    def command(self, name, target, *files):
        """The words of a command."""
        layout, source, *keys = self.words
        keys += self.on_graph if target == 'graph' else []
        return [self.given.program, name, layout, target, source, *files, *keys]

    def told(self, name, target, *files):
        """What a command tells, line by line of its first word; nothing where it is refused."""
        done = subprocess.run(self.command(name, target, *files), capture_output=True,
                              encoding='ascii', check=False)
        return dict(line.split(' ', 1) for line in done.stdout.splitlines() if ' ' in line)

    def beyond(self, name, state, broken):
        """Milliseconds on spins, and how many more on a graph."""
        least = []
        for target, file in (('ising', state), ('graph', broken)):
            words = self.command(name, target, *([file] if name == 'decode' else []))
            least.append(min(run(words)[0] for _ in range(self.given.runs)) * 1e3)
        return [f'{least[0]:.1f}', f'{least[1] - least[0]:.1f}']


def turned(state, chains):
    """A state with the last qubit of each longer chain turned."""
    bits = list(state)
    for chain in chains:
        if len(chain) > 1:
            bits[chain[-1]] = '10'[int(bits[chain[-1]])]
    return ''.join(bits)


def measure_form(given, folder, chip, form, chains, on_graph):
    """Prints the row of a form on a chip. Whether all is well."""
    name, words = form
    runs = Runs(given, words, on_graph)
    count = int(runs.told('size', 'ising')['variables'])
    zeros = written(folder, 'zeros', ['01' * (count // 2) + '0' * (count % 2) + '\n'])
    states = [runs.told('extend', target, zeros)['state'] for target in ('ising', 'graph')]
    plain = written(folder, 'state', [states[0] + '\n'])
    broken = written(folder, 'broken', [turned(states[1], chains) + '\n'])
    times = [runs.beyond(command, plain, broken) for command in ('compile', 'decode')]
    optima = [runs.told('solve', target).get('optimum') for target in ('ising', 'graph')]
    times.append(runs.beyond('solve', plain, broken) if None not in optima else ['-', '-'])
    held = (runs.told('decode', 'graph', broken)['assignment']
            == runs.told('decode', 'ising', plain)['assignment']
            and (None in optima or optima[0] == optima[1]))
    print(ROW.format(chip, name, len(chains), sum(map(len, chains)), max(map(len, chains)),
                     *sum(times, []), 'yes' if held else 'no'), flush=True)
    return held and max(float(more) for _, more in times[:2]) <= MOST_MILLISECONDS


def great(given, folder):
    """Prints what a graph of 2^20 qubits in 16 MiB takes. Whether that is little enough."""
    draw, size, lines = random.Random(5), 0, []
    order = draw.sample(range(MOST_QUBITS), MOST_QUBITS)
    for i in range(2 * MOST_QUBITS):
        one, other = order[i % MOST_QUBITS], draw.randrange(MOST_QUBITS)
        lines.append(f'{one} {other if other != one else one ^ 1}\n')
        size += len(lines[-1])
        if size > MOST_BYTES:
            lines.pop()
            break
    graph = written(folder, 'graph', lines)
    chains = map_file(folder, [[qubit] for qubit in order])
    source = written(folder, 'source', [f'p wcnf {MOST_QUBITS} 0\n'])
    words = [given.program, 'compile', 'wcnf', 'graph', source, f'graph={graph}', f'map={chains}']
    seconds = min(run(words)[0] for _ in range(given.runs))
    with tempfile.TemporaryFile() as out:
        memory = peak(words, out)
    print(f'{len(lines)} couplers on {MOST_QUBITS} qubits in {os.path.getsize(graph)} bytes, a chain '
          f'for each: {seconds:.2f} seconds, {memory:.0f} MB')
    return seconds <= MOST_SECONDS and memory <= MOST_MB


def measure_chips(given, folder):
    """A row for each form on each chip, and a line of the greatest graph. Whether all is well."""
    print(HEADING, flush=True)
    well = []
    for chip, make, size, qubits, joins in CHIPS:
        couplers = make(size)
        assert (len(neighbours(couplers)), len(couplers)) == (qubits, joins)
        graph = written(folder, chip, (f'{one} {other}\n' for one, other in couplers))
        for name, words, chains in forms(given.program, folder, couplers):
            on_graph = [f'graph={graph}', f'map={map_file(folder, chains)}']
            well.append(measure_form(given, folder, chip, (name, words), chains, on_graph))
    return all(well + [great(given, folder)])

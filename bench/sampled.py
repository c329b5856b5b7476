"""Tells what an annealer finds of problems with and without `slack=clauses penalty=local`.

Of each problem a row has twice, without the keys and with them, the greatest weight of the model, how
many of the samples are feasible, and the best cost of these. The optimum is told where `solve` with an
order of the package finds it. Samples are those of the package's annealer, with fixed seeds.
"""
import os
import subprocess
import sys

from problems import problems

READS, SWEEPS = 20, 1000
KEYS = ('slack=clauses', 'penalty=local')
ROW = '{:<38} {:>18} {:>10} {:>16} {:>8}'
HEADING = ROW.format('problem', 'greatest weight', 'feasible', 'best cost', 'optimum')


def package():
    """The Python package, of this checkout."""
    sys.path.insert(0, os.path.join(os.path.dirname(os.path.abspath(__file__)), '..', 'python'))
    import pbising
    return pbising


def output(words):
    """What a command writes, or None where it is refused."""
    done = subprocess.run(words, capture_output=True, encoding='ascii', check=False)
    return done.stdout if done.returncode == 0 else None


def written(folder, name, lines):
    """A file of these lines."""
    path = os.path.join(folder, name)
    with open(path, 'w', encoding='ascii') as file:
        file.writelines(lines)
    return path


def state_lines(states):
    """States as lines."""
    return [''.join(map(str, state)) + '\n' for state in states]


def found_with(given, folder, source, keys):
    """The greatest weight, how many samples are feasible, and the best cost; and the model."""
    def words(command, *files):
        return [given.program, command, source[0], 'qubo', source[1], *files, *keys]
    model = package().parse(output(words('compile')))
    states = package().anneal(model, READS, given.sweeps or SWEEPS)
    told = output(words('evaluate', written(folder, 'states', state_lines(states)))).splitlines()
    costs = [line.split()[3] for line in told if line.startswith('sample ')]
    whole = [int(cost) for cost in costs if cost != 'infinite']
    return model.greatest(), len(whole), min(whole, default='none'), model


def optimum(given, folder, source, model):
    """The optimum where it is found, else a dash."""
    pbising = package()
    try:
        order = pbising.elimination_order(model)
    except pbising.PbisingError:
        return '-'
    name = written(folder, 'order', (f'{node}\n' for node in order.nodes))
    told = output([given.program, 'solve', source[0], 'qubo', source[1], *KEYS, f'order={name}']) or ''
    costs = [line.split()[1] for line in told.splitlines() if line.startswith('optimum ')]
    return costs[0] if costs else '-'


def measure_samples(given, folder):
    """A row for each problem."""
    print(HEADING, flush=True)
    for number, (name, layout, text) in enumerate(problems()):
        source = layout, written(folder, f'{number}.{layout}', text)
        without = found_with(given, folder, source, ())
        keyed = found_with(given, folder, source, KEYS)
        cells = [f'{one:,} to {other:,}' if isinstance(one, int) and isinstance(other, int)
                 else f'{one} to {other}' for one, other in zip(without[:3], keyed)]
        print(ROW.format(name, *cells, optimum(given, folder, source, keyed[3])), flush=True)

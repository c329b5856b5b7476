#!/usr/bin/env python3
"""Measures programs on generated files, and prints a row for each.

    bench.py run [KIND ..]              the program on files of each kind, in steps of their size
    bench.py compare OTHER [KIND ..]    beside another program, which takes the same words
    bench.py further                    what these leave out, beside the plain program of plain/
    bench.py prove [OTHER]              `prove` of a QUBO of a million entries, by 16 MiB of a certificate
    bench.py graphs                     the target `graph` on a Pegasus, a Zephyr and 2^20 qubits
    bench.py keys [KIND ..]             files of 16 MiB with `slack=clauses penalty=local` and without
    bench.py samples                    what an annealer finds with these two keys and without
    bench.py floor                      what a byte takes here that is read and cut into numbers, and
                                        one that is formatted and written, by floor.rs

    --program FILE    without it, the program that rt ci leaves in its crate
    --runs N          how often each is run; 3 if not given
    --sweeps N        of the annealer of `samples`; 1000 if not given

Without a KIND all of `run` are taken: those of generate.py that have steps here. `seconds` are those
of the processor (user and system), which a busy machine spoils less than the clock; both are the
least of the runs. MB are 10^6 bytes: `MB/s` of the file by the seconds, `out MB` of what is written,
`peak MB` by GNU time (where there is none, never below that of this Python). `time x` and `peak x`
are the growth from the row above, or beside another program the ratio to it; the two are run in
turn, and `same` says whether both wrote the same bytes. `further`, `floor` need rustc, `keys` perf or
valgrind. `local` is the peak with `penalty=local`, `may add` the most that it may be above the other.
`graphs` and `keys` exit with 1 where a figure is above the most that it may be.
"""
import argparse
import os
import random
import subprocess
import sys
import tempfile

from chips import measure_chips
from generate import KINDS
from sampled import KEYS, measure_samples
from timing import instructions, peak, peaks_and_same, run, seconds_in_turn

BENCH = os.path.dirname(os.path.abspath(__file__))
PROGRAM = os.path.join(BENCH, '..', 'crates', 'compile_program', 'out', 'compile_program')
BYTES = (16_777, 167_772, 1_677_721, 16_777_216)
SIZES = {
    'unit': BYTES, 'pair': BYTES, 'three': BYTES, 'mixed': (400, 4_000, 40_000),
    'forty': (104, 1_048, 10_485), 'wide': (1, 4, 16), 'front': (40, 400, 4_000), 'hub': BYTES,
    'empty': (4_000, 40_000, 400_000, 4_000_000),
    'covers': (15_900, 159_000, 1_590_000, 15_900_000),
    'equations': (15_000, 150_000, 1_500_000, 15_000_000),
    'sacks': (50_000, 500_000, 5_000_000), 'sack': (400, 1_280, 4_080),
    'quartic': (16_700, 167_000, 1_670_000, 16_700_000),
    'names': (1_048, 10_485, 104_857, 1_048_576), 'tails': (40, 400, 4_000),
}
FURTHER_FILES = {
    'four.opb': 'conflicts 4', 'twelve.opb': 'conflicts 12', 'many.opb': 'conflicts 2140',
    'pair.wcnf': 'pair 16777216', 'three.wcnf': 'three 16777216', 'path.qubo': 'path 1048576',
    'band.qubo': 'band 4000', 'band.order': 'order 4000', 'sparse.qubo': 'sparse 1000',
    'states': 'states 1000',
}
# A name, the status that both end with, and the words. Four conflicts become pairs. The next eight
# keep their slack, and more are beyond a limit.
FURTHER = (
    ('four', 0, 'compile opb qubo four.opb slack=pairs'),
    ('twelve', 0, 'compile opb qubo twelve.opb slack=pairs'),
    ('many', 6, 'compile opb qubo many.opb slack=pairs'),
    ('bound', 0, 'compile wcnf qubo pair.wcnf bound=1000'),
    ('size', 0, 'size wcnf qubo three.wcnf'),
    ('first', 0, 'solve qubo qubo path.qubo order=first.order'),
    ('last', 0, 'solve qubo qubo path.qubo order=last.order'),
    ('band', 0, 'solve qubo qubo band.qubo order=band.order'),
    ('evaluate', 0, 'evaluate qubo qubo sparse.qubo states'),
)
# Files for `keys`, most of them of 16 MiB, by what generate.py makes: a kind and a size.
KEYS_FILES = {
    'clauses': 'three 16777216', 'pairs': 'pair 16777216', 'long': 'forty 10485',
    'hub': 'hub 16777216', 'covers': 'covers 16777216', 'knapsacks': 'sacks 16777216',
    'equations': 'equations 16777216', 'implications': 'implications 16777216',
}
MOST_RATIO = 1.2
KEYS_ROW = '{:<12} {:>9} {:>12} {:>12} {:>7} {:>8} {:>8} {:>8}'
KEYS_HEADING = KEYS_ROW.format('file', 'bytes', '10^6 instr.', 'with keys', 'ratio', 'peak MB',
                               'local', 'may add')
RUN_ROW = '{:<9} {:>9} {:>9} {:>9} {:>7} {:>8} {:>9} {:>7} {:>7}'
PAIR_ROW = '{:<9} {:>9} {:>9} {:>9} {:>7} {:>9} {:>9} {:>7} {:>5}'
PAIR_HEADING = PAIR_ROW.format(
    'kind', 'bytes', 'seconds', 'other', 'time x', 'peak MB', 'other MB', 'peak x', 'same')

# ---- files


def made(folder, name, kind, size):
    """A generated file of a folder."""
    path = os.path.join(folder, name)
    with open(path, 'wb') as file:
        subprocess.run([sys.executable, os.path.join(BENCH, 'generate.py'), kind, str(size)],
                       stdout=file, check=True)
    return path


def files_of(folder, kinds):
    """The files of the kinds, each with the words that compile it."""
    for kind in kinds:
        layout = KINDS[kind][0]
        for size in SIZES[kind]:
            path = made(folder, f'{kind}-{size}.{layout}', kind, size)
            yield kind, path, ['compile', layout, 'qubo', path]


def compiled(folder, name, *options):
    """A program of this folder, in Rust."""
    path = os.path.join(folder, 'program')
    subprocess.run(['rustc', '--edition', '2021', '-C', 'opt-level=3', *options, '-C', 'panic=abort',
                    '-o', path, os.path.join(BENCH, name)], check=True)
    return path


# ---- a program by itself, and two in turn


def measure(given, folder):
    """A row for each file."""
    print(RUN_ROW.format('kind', 'bytes', 'seconds', 'clock', 'MB/s', 'out MB', 'peak MB', 'time x',
                         'peak x'), flush=True)
    above = None
    for kind, path, words in files_of(folder, given.kinds or SIZES):
        runs = [run([given.program] + words) for _ in range(given.runs)]
        seconds = max(min(each[0] for each in runs), 1e-4)
        with tempfile.TemporaryFile() as out:
            memory = peak([given.program] + words, out)
            written = os.fstat(out.fileno()).st_size / 1e6
        growth = ['', '']
        if above and above[0] == kind:
            growth = [f'{seconds / above[1]:.1f}', f'{memory / above[2]:.1f}']
        size = os.path.getsize(path)
        print(RUN_ROW.format(
            kind, size, f'{seconds:.4f}', f'{min(each[1] for each in runs):.4f}',
            f'{size / 1e6 / seconds:.3g}', f'{written:.1f}', f'{memory:.1f}', *growth), flush=True)
        above = kind, seconds, memory


def compare_row(given, other, name, wanted, words):
    """Prints the row of a command, whose fourth word is the file."""
    programs = [given.program, other]
    seconds = seconds_in_turn(programs, words, wanted, given.runs)
    peaks, same = peaks_and_same(programs, words, wanted)
    print(PAIR_ROW.format(
        name, os.path.getsize(words[3]), f'{seconds[0]:.4f}', f'{seconds[1]:.4f}',
        f'{seconds[0] / seconds[1]:.2f}', f'{peaks[0]:.1f}', f'{peaks[1]:.1f}',
        f'{peaks[0] / peaks[1]:.2f}', 'yes' if same else 'no'), flush=True)


def compare(given, folder):
    """A row for each file."""
    print(PAIR_HEADING, flush=True)
    for kind, _, words in files_of(folder, given.kinds or SIZES):
        compare_row(given, given.other, kind, 0, words)


def further(given, folder):
    """A row for each command that `run` leaves out."""
    plain = compiled(folder, 'plain/main.rs', '-C', 'codegen-units=1')
    for name, words in FURTHER_FILES.items():
        made(folder, name, *words.split())
    for name, nodes in (('first.order', range(1 << 20)), ('last.order', reversed(range(1 << 20)))):
        with open(os.path.join(folder, name), 'w', encoding='ascii') as file:
            file.writelines(f'{node}\n' for node in nodes)
    os.chdir(folder)
    print(PAIR_HEADING, flush=True)
    for name, wanted, words in FURTHER:
        compare_row(given, plain, name, wanted, words.split())


# ---- graphs, keys and samples


def graphs(given, folder):
    """Rows of forms on graphs of annealers."""
    return measure_chips(given, folder)


def memory_for_penalties(path):
    """The most MB that may be taken more, while penalties are found: 24 bytes a literal, 32 a part."""
    with open(path, 'rb') as file:
        text = file.read()
    literals, parts = text.count(b'x'), text.count(b'=')
    if text.startswith(b'p wcnf'):
        literals, parts = len(text.split()) - 2 * text.count(b'\n'), text.count(b'\n1000000 ')
    return (24 * literals + 32 * parts) / 1e6


def keys(given, folder):
    """A row for each file: what a penalty for each part takes, and clauses in place of slack bits."""
    print(KEYS_HEADING, flush=True)
    well = True
    for name in given.kinds or KEYS_FILES:
        kind, size = KEYS_FILES[name].split()
        path = made(folder, name, kind, size)
        words = [given.program, 'compile', KINDS[kind][0], 'qubo', path]
        counts = [instructions(words + list(more)) for more in ((), KEYS)]
        peaks = [peak(words + list(more), subprocess.DEVNULL) for more in ((), KEYS[1:])]
        ratio, most = counts[1] / counts[0], memory_for_penalties(path)
        print(KEYS_ROW.format(name, os.path.getsize(path), *(f'{each / 1e6:.0f}' for each in counts),
                              f'{ratio:.2f}', *(f'{each:.1f}' for each in peaks), f'{most:.1f}'),
              flush=True)
        well = well and ratio <= MOST_RATIO and peaks[1] - peaks[0] <= most
    return well


def samples(given, folder):
    """Rows of problems."""
    return measure_samples(given, folder)


# ---- certificates

NODES, COUPLERS = 200_000, 800_000
MOST_BYTES = 2 ** 24


def entries(draw):
    """The entries of a model whose weights are above 0, each as a weight and its nodes.

    So the state without a 1 is a least one, of the energy 0, and they are a certificate themselves.
    """
    pairs = set()
    while len(pairs) < COUPLERS:
        pairs.add(tuple(sorted(draw.sample(range(NODES), 2))))
    places = [(node,) for node in range(NODES)] + sorted(pairs)
    return [(draw.randrange(1, 99), place) for place in places]


def line(weight, place):
    """A product of nodes, as a line."""
    return ' '.join(map(str, (weight, *place))) + '\n'


def lines_of(model, draw):
    """The lines of a certificate of at most 16 MiB: the entries, some of them cut in two."""
    lines, left = [], MOST_BYTES - sum(len(line(*entry)) for entry in model)
    for weight, place in model:
        cut = weight > 1 and left > 40 and draw.random() < 0.2
        parts = [weight // 2, weight - weight // 2] if cut else [weight]
        texts = [line(part, place) for part in parts]
        left -= sum(map(len, texts)) - len(line(weight, place))
        lines += texts
    return lines


def written(folder, name, lines):
    """A file of these lines."""
    path = os.path.join(folder, name)
    with open(path, 'w', encoding='ascii') as file:
        file.writelines(lines)
    return path


def prove(given, folder):
    """A row for the lines in the order of the model, and one for them shuffled."""
    draw = random.Random(5)
    model = entries(draw)
    rows = [f'{place[0]} {place[-1]} {weight}\n' for weight, place in model]
    source = written(folder, 'model', [f'p qubo 0 {NODES} {NODES} {COUPLERS}\n'] + rows)
    state = written(folder, 'state', ['0' * NODES + '\n'])
    lines = lines_of(model, draw)
    programs = [given.program] + ([given.other] if given.other else [])
    for name in ('ordered', 'shuffled'):
        words = ['prove', 'qubo', 'qubo', source, state, written(folder, name, lines)]
        seconds = seconds_in_turn(programs, words, 0, given.runs)
        for program, least in zip(programs, seconds):
            memory = peak([program] + words, subprocess.DEVNULL)
            print(f'{os.path.basename(program):<28} {name:>10} {least:>9.3f} {memory:>9.0f}', flush=True)
        draw.shuffle(lines)


# ---- the floor of the machine

ROWS = 8_000_000


def least_seconds(given, words, out):
    """The least seconds of a command, and how many bytes it writes."""
    seconds = float('inf')
    for _ in range(given.runs):
        out.seek(0)
        out.truncate()
        seconds = min(seconds, run(words, out)[0])
    return seconds, os.fstat(out.fileno()).st_size


def floor(given, folder):
    """Nanoseconds of a byte that is read, and of one that is written."""
    program = compiled(folder, 'floor.rs')
    text = made(folder, 'three.wcnf', 'three', 16_777_216)
    with tempfile.TemporaryFile() as out:
        seconds, _ = least_seconds(given, [program, 'read', text], out)
        print(f'read {seconds / os.path.getsize(text) * 1e9:.2f} ns a byte')
        seconds, size = least_seconds(given, [program, 'write', str(ROWS)], out)
        print(f'written {seconds / size * 1e9:.2f} ns a byte')


# ---- words


def executable(path):
    """A program that is to be measured, by its whole path."""
    if not os.access(path, os.X_OK) or os.path.isdir(path):
        sys.exit(f'no program at {path}: rt ci leaves one in its crate, or name one')
    return os.path.abspath(path)


def arguments():
    parser = argparse.ArgumentParser(description='see the head of this file')
    parser.add_argument('--program', default=PROGRAM)
    parser.add_argument('--runs', type=int, default=3)
    parser.add_argument('--sweeps', type=int)
    commands = parser.add_subparsers(required=True)
    for call, takes in ((measure, 'kinds'), (compare, 'other kinds'), (further, ''), (prove, 'other?'),
                        (floor, ''), (graphs, ''), (keys, 'kinds'), (samples, '')):
        command = commands.add_parser('run' if call is measure else call.__name__)
        command.set_defaults(call=call, other=None)
        if 'other' in takes:
            command.add_argument('other', nargs='?' if '?' in takes else None)
        if 'kinds' in takes:
            kinds = KEYS_FILES if call is keys else SIZES
            command.add_argument('kinds', nargs='*', metavar='KIND', choices=[[], *kinds])
    return parser.parse_args()


def main():
    given = arguments()
    if given.call is not floor:
        given.program = executable(given.program)
    if given.other:
        given.other = executable(given.other)
    print('cores:', os.cpu_count())
    with tempfile.TemporaryDirectory() as folder:
        well = given.call(given, folder)
    sys.exit(well is False)


if __name__ == '__main__':
    main()

#!/usr/bin/env python3
"""Refuses each piece of memory of a few runs in turn, and looks at what comes of each.

    memory.py [--most N] [CASE..]

The cases are those of crates/worked_examples/data/, without names the ones in CASES. `rt try` builds the
program once, without a proof, and runs it for each case and each number up to N (200 if not set), and each
time it refuses the allocation number N. The standard input has N - number bytes, for each of which the
program takes a piece of memory before all else. So each number is that of an allocation of the run, counted
from 1, and no larger number refuses anything.

Each run has to end as its case does where nothing is refused, or by want of memory: with status 9, its
error line, and no output. Where memory is refused to the program before or behind the run of the case, it
prints no status. A row has how many numbers were tried until none refuses anything, and how many of these
were refused outside of the run, ended by want of memory, or were done without. Exits with 1 where a run
ends otherwise, or N is too small.
"""
import argparse
import os
import re
import subprocess
import sys
import tempfile

CRATE = os.path.join(os.path.dirname(os.path.abspath(__file__)), '..', 'crates', 'worked_examples')
CASES = ['hard_and_soft_unit', 'one_chain_of_two', 'knapsack_of_twenty_items', 'decode_knapsack',
         'solve_feasible', 'extend_chain', 'sample_one_clause', 'graph_of_one_coupler',
         'facilities_by_rounds', 'two_units_with_top_as_a_bound']
WANT = 'status 9\nout of memory\n'
ROW = '{:<26} {:>6} {:>8} {:>6} {:>8}'


def answers():
    """What the stored run prints for each case, below its name."""
    with open(os.path.join(CRATE, 'stdout')) as file:
        blocks = re.split(r'^> (.*)\n', file.read(), flags=re.M)[1:]
    return dict(zip(blocks[::2], blocks[1::2]))


def write_inputs(folder, names, most):
    """An input for each case and number, and beside it the name of the case."""
    for name in names:
        for number in range(1, most + 1):
            path = os.path.join(folder, f'{name}-{number}')
            with open(path, 'w') as file:
                file.write('x' * (most - number))
            with open(path + '.args', 'w') as file:
                file.write(name + '\n')


def printed(names, most):
    """What is printed for each case and number, without the name."""
    with tempfile.TemporaryDirectory() as folder:
        write_inputs(folder, names, most)
        words = ['rt', 'try', '--steps', '1', '--fail-alloc', str(most), '--cases', folder]
        for name in names:
            words += ['--data', f'{name}=data/{name}']
        done = subprocess.run(words, cwd=CRATE, capture_output=True, text=True)
    ended = set(re.findall(r'^case=(\S+) run=ended ', done.stderr, re.M))
    blocks = re.split(r'^== (.*)\n', done.stdout, flags=re.M)[1:]
    found = {case: text for case, text in zip(blocks[::2], blocks[1::2]) if case in ended}
    if not found:
        sys.exit('nothing ran:\n' + done.stderr[-2000:])
    return {case: text.removeprefix(f'> {case.rpartition("-")[0]}\n') for case, text in found.items()}


def fault(name, most, found, answer):
    """Prints the row of a case. What is wrong with it, or none."""
    texts = [found.get(f'{name}-{number}') for number in range(1, most + 1)]
    for number, text in enumerate(texts, 1):
        if text not in ('', WANT, answer):
            return f'{name}, number {number}: {text!r}'
    tried = max((number for number, text in enumerate(texts, 1) if text != answer), default=0)
    if tried == most or WANT not in texts:
        return f'{name}: {most} numbers are too few'
    counts = [texts[:tried].count(text) for text in ('', WANT, answer)]
    print(ROW.format(name, tried, *counts))
    return None


def main():
    parser = argparse.ArgumentParser(description='see the head of this file')
    parser.add_argument('--most', type=int, default=200)
    parser.add_argument('cases', nargs='*', default=CASES)
    arguments = parser.parse_args()
    wanted = answers()
    found = printed(arguments.cases, arguments.most)
    print(ROW.format('case', 'tried', 'outside', 'want', 'without'))
    faults = [fault(name, arguments.most, found, wanted[name]) for name in arguments.cases]
    for line in filter(None, faults):
        print(line)
    sys.exit(1 if any(faults) else 0)


if __name__ == '__main__':
    main()

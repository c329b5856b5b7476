#!/usr/bin/env python3
"""Works out the cases of crates/worked_examples by a second program, and looks at what is stored.

    cases.py [--write] [CASE..]        cases.py --program PROGRAM [CASE..]

A case is a file of data/, which its words begin; the program of that crate says how it is laid out.
Without names all cases of `args` are taken. The answer of each is worked out by answers.py and what
it uses, and compared with the block of `stdout`. What differs is printed, and how many cases were
worked out. The others are help and version, words without a command, `solve` of a model that is not
small, and what `prove` refuses. With --write `stdout` gets the blocks that were worked out, and keeps
the others.

With PROGRAM, a built program, each case is run instead on files in a folder of its own, but for one whose
file has an empty name, and status, output and error line are compared with `stdout`. Exits with 1 where
anything differs.
"""
import argparse
import os
import re
import subprocess
import sys
import tempfile

from answers import OfAnotherKind, work_out

CRATE = os.path.join(os.path.dirname(os.path.abspath(__file__)), '..', 'crates', 'worked_examples')
BASIS, PRIME = 14695981039346656037, 1099511628211    # of the hash FNV-1a


class Case:
    """The words of a case, its files, the lines that are printed, and the pieces that are put in."""

    def __init__(self, text):
        words, *sections = text.split('@')
        self.words, self.files, self.lines, self.pieces = words.split(), [], None, None
        for section in sections:
            head, _, body = section.partition('\n')
            name, times = ((head.split() or ['']) + ['1'])[:2]
            if name == 'lines':
                self.lines = body.splitlines()
            elif name == 'changed':
                self.pieces = [bytes(map(int, word.split(','))) for word in body.split()]
            else:
                self.add_file(name, body.encode() * int(times))

    def add_file(self, name, text):
        """A file, or more of the last one."""
        if self.files and self.files[-1][0] == name:
            self.files[-1] = (name, self.files[-1][1] + text)
        else:
            self.files.append((name, text))

    def texts(self):
        """The fronts of the first file, and then the file with each piece in the place of each byte."""
        whole = self.files[0][1]
        for end in range(len(whole) + 1):
            yield whole[:end]
        for piece in self.pieces:
            for place in range(len(whole)):
                yield whole[:place] + piece + whole[place + 1:]

    def shown(self, run):
        """What is printed of the case, where `run` gives status, output and line of words and files."""
        if self.pieces is not None:
            name, others = self.files[0][0], self.files[1:]
            return self.told([run(self.words, [(name, text)] + others) for text in self.texts()])
        status, out, line = run(self.words, self.files)
        if self.lines is not None:
            have = set(out.split('\n'))
            out = ''.join(each + '\n' for each in self.lines if each in have)
        return f'status {status}\n{out}{line}'

    def told(self, answers):
        """How many runs there are, how many of them are good, and the hash of what they write."""
        good = sum(status == 0 for status, _, _ in answers)
        written = ''.join(f'{out}status {status}\n' for status, out, _ in answers)
        value = BASIS
        for byte in (written + ''.join(line for _, _, line in answers)).encode():
            value = (value ^ byte) * PRIME % 2 ** 64
        return f'runs {len(answers)}\ngood {good}\nhash {value}\n'


# ---- by a built program

def runner(program, folder):
    """Runs a program on files in a folder."""
    def run(words, files):
        if not all(name for name, _ in files):
            raise OfAnotherKind
        for name in os.listdir(folder):
            os.remove(os.path.join(folder, name))
        for name, text in reversed(files):
            with open(os.path.join(folder, name), 'wb') as file:
                file.write(text)
        done = subprocess.run([program] + words, cwd=folder, capture_output=True, check=False)
        return done.returncode, done.stdout.decode(), done.stderr.decode()
    return run


# ---- all cases

def stored():
    """The names of all cases, and the block of each."""
    with open(os.path.join(CRATE, 'args'), encoding='utf-8') as file:
        names = file.read().split()
    with open(os.path.join(CRATE, 'stdout'), encoding='utf-8') as file:
        blocks = re.split(r'^> (.*)\n', file.read(), flags=re.M)[1:]
    return names, dict(zip(blocks[::2], blocks[1::2]))


def case_of(name):
    """The case of a name."""
    with open(os.path.join(CRATE, 'data', name), encoding='utf-8', newline='') as file:
        return Case(file.read())


def blocks_by(run, names):
    """The blocks of the cases that a runner answers."""
    blocks = {}
    for name in names:
        try:
            blocks[name] = case_of(name).shown(run)
        except OfAnotherKind:
            pass
    return blocks


def report(title, names, found, blocks):
    """Prints which blocks differ. Whether any does."""
    wrong = [name for name in names if name in found and found[name] != blocks.get(name)]
    for name in wrong:
        print(f'{title}: {name}\n  {found[name][:400]!r}\n  {blocks.get(name, "")[:400]!r}')
    print(f'{title}: {len(found)} of {len(names)} cases, {len(wrong)} differ')
    return bool(wrong)


def write(names, blocks):
    """Stores the blocks of all cases."""
    with open(os.path.join(CRATE, 'stdout'), 'w', encoding='utf-8') as file:
        file.write(''.join(f'> {name}\n{blocks[name]}' for name in names))


def main():
    parser = argparse.ArgumentParser(description=__doc__.split('\n', maxsplit=1)[0])
    parser.add_argument('--write', action='store_true')
    parser.add_argument('--program')
    parser.add_argument('cases', nargs='*')
    options = parser.parse_args()
    names, blocks = stored()
    chosen = options.cases or names
    if options.program:
        with tempfile.TemporaryDirectory() as folder:
            found = blocks_by(runner(os.path.abspath(options.program), folder), chosen)
        sys.exit(report('run', chosen, found, blocks))
    found = blocks_by(work_out, chosen)
    if options.write:
        blocks.update(found)
        write(names, blocks)
    sys.exit(report('worked out', chosen, found, blocks))


if __name__ == '__main__':
    main()

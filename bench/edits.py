#!/usr/bin/env python3
"""Tries the wrong bodies that the gate leaves out: those of crates/NAME/edits/.

    edits.py [NAME..]

Each file there is an edit as in must-fail/: one line in place of another, and the proof of its crate has to
refuse it. Without names all crates that have such a folder are tried. `rt ci NAME` does it, on a copy of the
crates where the edits lie in must-fail/: what an earlier `rt ci` proved on this machine is not proved again.
Exits with 1 where one is not refused.
"""
import os
import shutil
import subprocess
import sys
import tempfile

TOP = os.path.join(os.path.dirname(os.path.abspath(__file__)), '..')


def has_edits(name):
    return os.path.isdir(os.path.join(TOP, 'crates', name, 'edits'))


def copied(folder, names):
    """A copy of the repository's crates in which the edits of these lie where they are tried, and no others."""
    leave = shutil.ignore_patterns('out', 'must-fail')
    shutil.copytree(os.path.join(TOP, 'crates'), os.path.join(folder, 'crates'), ignore=leave)
    for file in ('crates.txt', 'HANDLES'):
        shutil.copy(os.path.join(TOP, file), folder)
    for name in names:
        crate = os.path.join(folder, 'crates', name)
        os.rename(os.path.join(crate, 'edits'), os.path.join(crate, 'must-fail'))


def main(names):
    known = sorted(filter(has_edits, os.listdir(os.path.join(TOP, 'crates'))))
    for name in names:
        if name not in known:
            sys.exit(f'edits.py: there is no folder crates/{name}/edits')
    names = names or known
    with tempfile.TemporaryDirectory() as folder:
        copied(folder, names)
        return subprocess.run(['rt', 'ci', *names], cwd=folder, check=False).returncode


if __name__ == '__main__':
    sys.exit(main(sys.argv[1:]))

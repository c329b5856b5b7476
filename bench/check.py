#!/usr/bin/env python3
"""Runs the commands of the documents for users on a built program, and follows all links.

    check.py PROGRAM [DOCUMENT ..]

A block ```sh holds commands, which `sh -e` runs; a block ```python holds a program of its own. Both
run at the top of a scratch tree, one for each document, which has links to all that the repository
has but no build/, with PROGRAM on the PATH as compile_program, and with the package pbising. They
have to end with 0, and to leave files in build/ alone. A block ```output behind one says what it
writes to both outputs; a line `...` there stands for any lines. Blocks of other words are not run.
A block that calls rt, a tool or a module that is not there, is skipped with a line that says so, and
so is one that needs a file of such a block.

Each relative link of each document, *.md in any folder, has to lead to a file, and to a heading of
it where it names one. The status is 0 where all holds.
"""
import difflib
import importlib.util
import os
import re
import shutil
import subprocess
import sys
import tempfile
from pathlib import Path

ROOT = Path(__file__).resolve().parent.parent
DOCUMENTS = ('README.md', 'docs/GUIDE.md', 'docs/REFERENCE.md', 'python/README.md')
FENCE = re.compile(r'^```(\w*)[^\n]*\n(.*?)^```[ \t]*$', re.M | re.S)
HERE = re.compile(r"<<-?\s*['\"]?(\w+)['\"]?([^\n]*)\n.*?^\1$", re.M | re.S)
BEFORE = {'do', 'then', 'else', 'if', 'elif', 'while', 'until', '!', 'time', 'nice', 'exec'}
LEFT_OUT = {'.git', 'build', 'out', 'target'}


class Step:
    """The commands of a block, the line of its document, and what they are to write."""

    def __init__(self, line, commands):
        self.line, self.commands, self.output = line, commands, None

    def words(self):
        """The words that run it."""
        return ['sh', '-e', '-c', self.commands]

    def missing(self, env):
        """A tool that is not to be run or not there, or None."""
        for tool in self.tools():
            there = subprocess.run(['sh', '-c', 'command -v "$1"', 'sh', tool], env=env,
                                   stdout=subprocess.DEVNULL, check=False).returncode == 0
            if tool == 'rt' or not there:
                return tool
        return None

    def tools(self):
        """The first word of each command."""
        text = HERE.sub(r'\2', self.commands.replace('\\\n', ' '))
        text = re.sub(r"'[^']*'|\"[^\"]*\"|(?m:(?<!\S)#.*$)", '\0', text)
        for part in re.split(r'[|;&\n(){}`]+', text):
            words = part.split()
            while words and (words[0] in BEFORE or '=' in words[0]):
                words.pop(0)
            if words and re.match(r'[\w./]', words[0]):
                yield words[0]

    def files(self):
        """The files in build/ that the commands name, and those that they write."""
        name = r'build/[\w./-]+'
        return (set(re.findall(name, self.commands)),
                set(re.findall(r'>\s*(' + name + ')', self.commands)))


class PythonStep(Step):
    """A program in Python."""

    def words(self):
        return [sys.executable, '-c', self.commands]

    def missing(self, env):
        """A module that is not there, or None. The package is always there."""
        modules = re.findall(r'^(?:import|from) +(\w+)', self.commands, re.M)
        return next((name for name in modules
                     if name != 'pbising' and importlib.util.find_spec(name) is None), None)


KINDS = {'sh': Step, 'python': PythonStep}


def steps_of(text):
    """The steps of a document."""
    steps, last = [], None
    for block in FENCE.finditer(text):
        word, inside = block.groups()
        line = text.count('\n', 0, block.start()) + 1
        if word == 'output' and last is None:
            raise ValueError(f'line {line}: no commands stand before this output')
        if word == 'output':
            last.output, last = inside, None
        elif word in KINDS or word == 'console':
            last = KINDS.get(word, Step)(line, inside)
            steps += [last] if word in KINDS else []
    return steps


def scratch(top, program):
    """Fills a folder with links to the repository, and gives the environment of commands there."""
    for entry in ROOT.iterdir():
        if entry.name not in LEFT_OUT:
            (top / 'tree' / entry.name).symlink_to(entry)
    (top / 'bin' / 'compile_program').symlink_to(program)
    path = f"{top / 'bin'}{os.pathsep}{os.environ.get('PATH', os.defpath)}"
    env = {**os.environ, 'PATH': path, 'PYTHONDONTWRITEBYTECODE': '1', 'LC_ALL': 'C.UTF-8',
           'PYTHONPATH': str(ROOT / 'python'), 'PBISING_PROGRAM': str(program)}
    env.pop('PYTHONUNBUFFERED', None)
    return env


def run(step, tree, env):
    """What a step wrote, and its status."""
    done = subprocess.run(step.words(), cwd=tree, env=env, check=False,
                          stdin=subprocess.DEVNULL, stdout=subprocess.PIPE,
                          stderr=subprocess.STDOUT)
    return done.stdout.decode('utf-8', 'replace'), done.returncode


def matches(wanted, got):
    """Whether lines are the wanted ones, of which `...` stands for any."""
    parts = ('\n' + wanted).split('\n...\n')
    pattern = r'\n(?:.*\n)*'.join(map(re.escape, parts))
    return re.fullmatch(pattern, '\n' + got) is not None


def faults_of(step, got, status):
    """What is wrong with a step."""
    if status:
        yield f'ended with the status {status}, and wrote:\n{got}'
    elif step.output is not None and not matches(step.output, got):
        lines = difflib.unified_diff(step.output.splitlines(), got.splitlines(),
                                     'the document', 'the program', lineterm='')
        yield 'wrote something else:\n' + '\n'.join(lines)


def check_steps(name, steps, tree, env):
    """Runs the steps of a document; gives the number of faults."""
    faults, skipped, lost = 0, 0, set()
    for step in steps:
        used, written = step.files()
        tool = step.missing(env)
        needed = {file for file in lost & used - written if not (tree / file).exists()}
        if tool or needed:
            skipped += 1
            lost |= used
            why = f'{tool} is not ' + ('run here' if tool == 'rt' else 'installed') if tool else \
                'skipped steps make ' + ' '.join(sorted(needed))
            print(f'{name}:{step.line}: skipped, since {why}')
            continue
        for fault in faults_of(step, *run(step, tree, env)):
            faults += 1
            print(f'{name}:{step.line}: {fault}')
    compared = sum(step.output is not None for step in steps)
    print(f'{name}: {len(steps)} steps, {skipped} skipped, {compared} with an output')
    return faults


def check_document(name, program):
    """Runs a document in a scratch tree of its own; gives the number of faults."""
    steps = steps_of((ROOT / name).read_text(encoding='utf-8'))
    with tempfile.TemporaryDirectory() as top:
        top = Path(top)
        (top / 'tree').mkdir()
        (top / 'bin').mkdir()
        env = scratch(top, program)
        faults = check_steps(name, steps, top / 'tree', env)
        stray = [entry.name for entry in (top / 'tree').iterdir()
                 if not entry.is_symlink() and entry.name != 'build']
        for entry in stray:
            print(f'{name}: leaves {entry}, which is not in build/')
        return faults + len(stray)


def without_code(text):
    """A document without its blocks and pieces of code."""
    return re.sub(r'`[^`\n]*`', '', FENCE.sub('', text))


def anchors(text):
    """The names of a document's headings."""
    seen = {}
    for heading in re.findall(r'^#+ +(.*?) *#*$', FENCE.sub('', text), re.M):
        heading = re.sub(r'\[([^\]]*)\]\([^)]*\)', r'\1', heading)
        name = re.sub(r'[^\w\- ]', '', heading.lower()).replace(' ', '-')
        seen[name] = seen.get(name, -1) + 1
        yield f'{name}-{seen[name]}' if seen[name] else name


def documents():
    """All documents of the repository."""
    for folder, folders, files in os.walk(ROOT):
        folders[:] = sorted(name for name in folders if name not in LEFT_OUT)
        yield from (Path(folder, name) for name in sorted(files) if name.endswith('.md'))


def check_links():
    """Follows the relative links of all documents; gives the number of faults."""
    faults = count = 0
    for document in documents():
        text = without_code(document.read_text(encoding='utf-8'))
        for link in re.findall(r'\]\(([^)\s]+)[^)]*\)|(?:src|href)="([^"]+)"', text):
            link = link[0] or link[1]
            if re.match(r'\w+:', link):
                continue
            count += 1
            path, _, anchor = link.partition('#')
            target = document.parent / path if path else document
            lost = not target.exists() or anchor and target.suffix == '.md' and \
                anchor not in anchors(target.read_text(encoding='utf-8'))
            if lost:
                faults += 1
                print(f'{document.relative_to(ROOT)}: {link} leads nowhere')
    print(f'{count} relative links')
    return faults


def main():
    """Checks the documents, and tells whether all holds."""
    if len(sys.argv) < 2 or sys.argv[1].startswith('-'):
        print(__doc__.strip())
        return 2
    program = shutil.which(sys.argv[1])
    if program is None:
        raise ValueError(f'{sys.argv[1]} is no program')
    program = Path(program).resolve()
    faults = sum(check_document(name, program) for name in sys.argv[2:] or DOCUMENTS)
    faults += check_links()
    print('all holds' if not faults else f'{faults} faults')
    return 1 if faults else 0


if __name__ == '__main__':
    try:
        sys.exit(main())
    except (ValueError, OSError) as fault:
        print(fault, file=sys.stderr)
        sys.exit(2)

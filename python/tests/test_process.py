"""The program as a process: files by a pipe in pieces, each exit code, and words that are no text."""
import os
import random
import resource
import subprocess
import sys
import tempfile
import unittest

from helper import ROOT, find_program, needs_program

SMALL = os.path.join(ROOT, 'examples', 'timetable.wcnf')
COMPILE = ['compile', 'wcnf', 'qubo']


def ended(words, **keys):
    """The exit code of the program, and what it wrote to both outputs."""
    keys.setdefault('stdout', subprocess.PIPE)
    done = subprocess.run([find_program(), *words], stderr=subprocess.PIPE, check=False, **keys)
    return done.returncode, done.stdout, done.stderr


def by_pipe(text, size):
    """The same, where the program reads a source that comes by a pipe in pieces of a size."""
    with subprocess.Popen([find_program(), *COMPILE, '/dev/stdin'], bufsize=0, stdin=subprocess.PIPE,
                          stdout=subprocess.PIPE, stderr=subprocess.PIPE) as process:
        for start in range(0, len(text), size):
            process.stdin.write(text[start:start + size])
        out, err = process.communicate()
        return process.returncode, out, err


def clauses(count):
    """The text of so many clauses of three."""
    draw, variables = random.Random(count), count // 4
    lines = []
    for _ in range(count):
        chosen = draw.sample(range(1, variables + 1), 3)
        literals = ' '.join(str(draw.choice((1, -1)) * each) for each in chosen)
        lines.append(f'{draw.randint(1, 9)} {literals} 0\n')
    return f'p wcnf {variables} {count} 1000000\n{"".join(lines)}'.encode()


def with_little_memory():
    """Leaves a process 24 MB."""
    resource.setrlimit(resource.RLIMIT_AS, (24 << 20, 24 << 20))


@needs_program
class TestPieces(unittest.TestCase):
    """A source is read to its end, however it comes."""

    def test_a_source_that_comes_in_pieces_is_read_whole(self):
        with open(SMALL, 'rb') as file:
            small = file.read()
        large = clauses(40_000)
        for text, size in ((small, 1), (large, 4096), (large, 65_536), (large, 65_537)):
            with tempfile.NamedTemporaryFile() as file:
                file.write(text)
                file.flush()
                wanted = ended([*COMPILE, file.name])
            self.assertEqual(wanted[0], 0)
            self.assertEqual(by_pipe(text, size), wanted, size)

    def test_a_model_that_goes_to_a_pipe_is_written_whole(self):
        with tempfile.TemporaryDirectory() as folder:
            source, written = os.path.join(folder, 'source'), os.path.join(folder, 'written')
            with open(source, 'wb') as file:
                file.write(clauses(20_000))
            with open(written, 'wb') as file:
                ended([*COMPILE, source], stdout=file)
            with open(written, 'rb') as file:
                self.assertEqual(ended([*COMPILE, source])[1], file.read())


@needs_program
class TestExits(unittest.TestCase):
    """Each exit code, as a process ends with it."""

    def test_each_exit_code(self):
        clash = os.path.join(ROOT, 'crates', 'compile_program', 'data', 'clash.wcnf')
        cover = os.path.join(ROOT, 'examples', 'cover.opb')
        board = ['rows=1', 'cols=1', 'shore=1', 'embed=clique']
        with tempfile.TemporaryDirectory() as folder:
            long, state = os.path.join(folder, 'long'), os.path.join(folder, 'state')
            one, none = os.path.join(folder, 'one'), os.path.join(folder, 'none')
            for name, text in ((long, b' ' * (2 ** 24 + 1)), (state, b'0\n'), (one, b'1\n'), (none, b'')):
                with open(name, 'wb') as file:
                    file.write(text)
            rows = (
                (0, [*COMPILE, clash], b''),
                (2, ['compile', 'wcnf'], b'usage: word 3\n'),
                (3, [*COMPILE, folder + '/no'], f'cannot read {folder}/no\n'.encode()),
                (3, [*COMPILE, folder], f'cannot read {folder}\n'.encode()),
                (5, [*COMPILE, none], f'{none}:1: end\n'.encode()),
                (6, [*COMPILE, long], f'{long}: limit bytes 16777217\n'.encode()),
                (7, ['compile', 'opb', 'chimera', cover, *board], None),
                (8, ['decode', 'wcnf', 'qubo', clash, none], f'{none}: no state of 1 characters\n'.encode()),
                (10, ['prove', 'wcnf', 'qubo', clash, state, none], None),
            )
            for code, words, line in rows:
                got, out, err = ended(words)
                self.assertEqual(got, code, (words, err))
                self.assertEqual(bool(out), code == 0, words)
                if line is not None:
                    self.assertEqual(err, line)

    def test_a_width_that_is_too_large(self):
        with tempfile.NamedTemporaryFile() as file:
            pairs = [(i, j) for i in range(18) for j in range(i)]
            file.write(b'p qubo 0 18 0 %d\n' % len(pairs))
            file.writelines(b'%d %d 1\n' % (j, i) for i, j in pairs)
            file.flush()
            self.assertEqual(ended(['solve', 'qubo', 'qubo', file.name])[0], 11)

    @unittest.skipUnless(os.path.exists('/dev/full'), 'there is no /dev/full')
    def test_an_output_that_takes_nothing(self):
        with open('/dev/full', 'wb') as full:
            code, _, err = ended([*COMPILE, SMALL], stdout=full)
        self.assertEqual((code, err), (4, b'cannot write\n'))

    def test_want_of_memory(self):
        with tempfile.NamedTemporaryFile() as file:
            file.write(clauses(300_000))
            file.flush()
            code, out, err = ended([*COMPILE, file.name], preexec_fn=with_little_memory)
        self.assertEqual((code, out, err), (9, b'', b'out of memory\n'))

    @unittest.skipUnless(sys.platform == 'linux', 'words are bytes on Linux')
    def test_a_word_that_is_no_text_ends_the_program_without_a_line(self):
        self.assertEqual(ended(['compile', 'wcnf', 'qubo', b'\xff']), (2, b'', b''))


if __name__ == '__main__':
    unittest.main()

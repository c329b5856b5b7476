"""What is printed is short, and what is read is read: tables, texts of solvers, files as they come."""
import builtins
import gzip
import tempfile
import unittest
from pathlib import Path
from unittest import mock

from helper import EXAMPLES, QUBO, command, enter_folder, needs_program

import pbising
from pbising import Model, PbisingError, ReadError, Source, TextError, from_opb, parse
from pbising.compiling import CompiledModel, Request
from pbising.decoding import MOST_JUDGED, Decoding, decoded
from pbising.readers import read_problem
from pbising.samples import Sample, states_of, text_samples

BITS = [1, 0, 0, 1]


def decoding(source, states, told):
    """Decoded samples of a model of three variables, of costs that are told."""
    model = parse(QUBO.encode())
    costs = {''.join(map(str, state)): told for state in states}
    return Decoding(decoded(model, source, [Sample(state) for state in states], costs), 0, 'program')


class Printed(unittest.TestCase):
    def test_no_sample_is_judged_where_there_is_nothing_to_break(self):
        for layout, text in (('qubo', 'p qubo 0 3 0 0\n'), ('ising', 'p ising 3 0 0\n'), ('poly', '0 a\n0 b\n0 c\n')):
            reading = mock.patch('pbising.sources.read_problem', side_effect=read_problem)
            with reading as read:
                found = decoding(Source(text.encode(), layout), [BITS, [0, 0, 0, 0]], (0, -6))
                self.assertEqual(str(found), 'samples 2, feasible 2\n  cost 0: 2')
                self.assertEqual((found.broken_lines(), read.call_count), ([], 0))

    def test_a_table_judges_few_samples(self):
        model = parse(QUBO.replace('variables 3', 'variables 4').encode())
        source = Source(b'p wcnf 4 1\n2 1 2 3 4 0\n', 'wcnf')
        states = [Sample([at >> bit & 1 for bit in range(4)]) for at in range(16)]
        read = type(source.problem)
        judging = mock.patch.object(read, 'judge', autospec=True, side_effect=read.judge)
        told = {''.join(map(str, one.state)): (0 if sum(one.state) else 2, 0) for one in states}
        with judging as judge:
            found = Decoding(decoded(model, source, states * 20, told), 0, 'program')
            table = str(found)
        self.assertEqual(judge.call_count, 16)
        self.assertIn(f'of the first {MOST_JUDGED} samples:\nbroken in 7 %: line 2, weight 2', table)
        self.assertEqual(found.broken_lines()[0][1], 20)
        with mock.patch('pbising.decoding.MOST_PARTS', 3):
            self.assertIn('of the first 3 samples:\nbroken in 33 %', str(found))

    def test_a_line_for_each_thing(self):
        model = parse(QUBO.encode())
        request = Request(Source(b'h 1 0\n', 'wcnf'), 'qubo', {})
        compiled = CompiledModel(**vars(model), request=request)
        found = decoding(Source(b'p wcnf 3 0\n', 'wcnf'), [BITS], (None, -6))
        for thing, told in ((model, '<Model: qubo, 4 nodes, 6 couplers>'),
                            (compiled, '<CompiledModel: qubo, 4 nodes, 6 couplers>'),
                            (request.source, '<Source text: wcnf, 6 bytes>'),
                            (found, '<Decoding: 1 samples, told by the program>'),
                            (found[0], '<Decoded: cost infinite, energy -6, 3 variables>')):
            self.assertEqual(repr(thing), told)

    def test_a_decoding_is_a_sequence(self):
        found = decoding(Source(b'p wcnf 3 0\n', 'wcnf'), [BITS, [0] * 4], (0, -6))
        self.assertEqual((len(found), found[-1].state, [one.state for one in found[:1]]), (2, [0] * 4, [BITS]))
        self.assertIn(found[0], found)
        self.assertEqual(list(reversed(found))[0], found[1])


class Names(unittest.TestCase):
    def test_a_star_takes_nothing_of_python(self):
        names = {}
        exec('from pbising import *', names)
        self.assertFalse(set(names) & set(vars(builtins)) - {'__builtins__', '__doc__'})
        self.assertIs(names['from_qubo'], pbising.from_qubo)

    def test_every_public_name_is_there_and_explained(self):
        for name in [*pbising.__all__, 'compile']:
            self.assertTrue(getattr(pbising, name).__doc__, name)
        self.assertEqual(sorted(pbising.__all__), pbising.__all__)


class Samples(unittest.TestCase):
    def setUp(self):
        self.model = parse(QUBO.encode())

    def found(self, text):
        """The samples of a text, as lists where all nodes are named."""
        return [list(known) if isinstance(known, list) else dict(sorted(known.items()))
                for known in text_samples(self.model, text)]

    def test_lines_with_commas(self):
        for text in '1,0,0,1', '1, 0, 0, 1,', '1;-1;-1;1', '1.0,0.0,0.0,1.0':
            self.assertEqual(self.found(f'x1,x2,x3,x4\n{text}\n'), [BITS], text)
        table = ',0,1,2,3,energy,num_occurrences\n0,1,0,0,1,-6.0,1\n1,0,0,0,0,0.0,2\n'
        self.assertEqual([sorted(known.items()) for known in text_samples(self.model, table)],
                         [list(enumerate(BITS)), list(enumerate([0] * 4))])

    def test_lines_of_names(self):
        wanted = [{0: 1, 1: 0, 2: 1}]
        for text in ('x1=1\nx2=0\nx3=1\n', 'x3 = 1, x2 = 0; x1 = 1', 'energy -6\nx1=+1 x2=-1\nx3=1.0'):
            self.assertEqual(self.found(text), wanted, text)
        self.assertEqual(self.found('x1=1 x2=0 x3=1\nx1=0 x2=0 x3=0'), [*wanted, {0: 0, 1: 0, 2: 0}])
        for text in 'x0=1', 'x4=1', 'x1=2', 'y=1':
            with self.assertRaisesRegex(PbisingError, f'{text} is no bit of a variable, as x1=1 is'):
                self.found(text)
        self.assertEqual(self.found('time = 3 s\nf(x)=2 at x1=1 of 7\n'), [])

    def test_true_and_false(self):
        self.assertEqual(states_of(self.model, {0: True, 1: False, 2: False, 3: True})[0].state, BITS)
        self.assertEqual(self.found('{0: True, 1: False, 2: False, 3: True}'), [dict(enumerate(BITS))])
        self.assertEqual(self.found('[true, false, false, true]'), [BITS])

    def test_what_is_no_sample(self):
        for samples, told in ((7, '7 is no sample'), (None, 'None is no sample'), ([[0] * 4, 3], 'no list'),
                              ({(0, 1): 1}, 'no node'), ([0, 0, 0, None], 'None is no bit'),
                              ('energy -6\n', 'no sample is given')):
            with self.assertRaisesRegex(PbisingError, told):
                states_of(self.model, samples)

    @needs_program
    def test_lines_by_labels(self):
        model = pbising.compile('-3 north east\n1 north\n', 'poly')
        self.assertEqual(model.decode('north=1 east=1').best.cost, -2)
        self.assertEqual(model.decode('v 1 2 0\n').best.cost, -2)
        with self.assertRaisesRegex(PbisingError, 'x1=1 is no bit of a variable, as north=1 is'):
            model.decode('x1=1 x2=0')

    @needs_program
    def test_the_command_takes_them_too(self):
        self.assertEqual(command('to-state', '-', EXAMPLES / 'cut.poly', given=b'')[0], 2)
        with tempfile.TemporaryDirectory() as folder:
            (Path(folder) / 'm').write_text(QUBO)
            for text in b'1,0,0,1\n', b'x1=1 x2=0 x3=0\n', b'{0: True, 1: 0, 2: 0, 3: true}':
                status, out, _ = command('to-state', Path(folder) / 'm', given=text)
                self.assertEqual((status, out), (0, '1001\n'), text)


class Files(unittest.TestCase):
    def setUp(self):
        enter_folder(self)

    def test_models_that_are_compressed_or_marked(self):
        for name, data in (('a', gzip.compress(QUBO.encode())), ('b', b'\xef\xbb\xbf' + QUBO.encode())):
            Path(name).write_bytes(data)
            self.assertEqual(pbising.load(name), parse(QUBO.encode()))
        Path('a').write_bytes(gzip.compress(QUBO.encode())[:-9])
        with self.assertRaisesRegex(PbisingError, 'a: this is no whole file of gzip'):
            pbising.load('a')
        Path('a.opb.gz').write_bytes(gzip.compress(b'x1 + x2 >= 1 ;\n'))
        self.assertEqual(from_opb('a.opb.gz').text, '1 x1 +1 x2 >= 1 ;\n')

    def test_files_that_cannot_be_read(self):
        for name in 'nowhere', '.', 'a\0b':
            with self.assertRaisesRegex(ReadError, 'cannot read'):
                pbising.load(name)

    def test_signs_that_stand_alone(self):
        for text, wanted in (('min: x1 + x2 ;\n', 'min: 1 x1 +1 x2 ;\n'),
                             ('- 2 x1 + ~x2 >= - 1;\n', '-2 x1 +1 ~x2 >= -1;\n'),
                             ('x1 -\n3 x2 >= 1 ;\n', '1 x1 \n-3 x2 >= 1 ;\n'),
                             ('-x1 + 2 x2 x3 >= 0 ;\n', '-1 x1 +2 x2 x3 >= 0 ;\n')):
            source = from_opb(text)
            self.assertEqual(source.text, wanted)
            self.assertTrue(source.problem.parts or source.problem.objective)
        for text, token in (('x1 + + x2 >= 1 ;\n', '+'), ('x1 + ;\n', ';'), ('2x1 >= 1 ;\n', '2x1'),
                            ('x1 x2 + x3 x4 >= 1 ;\n', 'x2')):
            with self.assertRaises(TextError) as caught:
                from_opb(text)
            self.assertEqual(caught.exception.token, token)

    def test_sums_as_people_write_them(self):
        source = from_opb('min: 2 x1 + 3 x2 - x3 ;\nx1 + x2 >= 1 ;\nx1 - x3 >= 0 ;\n')
        self.assertEqual([source.cost(bits) for bits in ([1, 0, 1], [0, 1, 0], [0, 1, 1], [0, 0, 0])],
                         [1, 3, None, None])

    @needs_program
    def test_what_from_opb_writes_is_compiled(self):
        for text in 'min: x1 + x2 ;\n', 'x1 + x2 >= 1 ;\n', '- 2 x1 + 3 x2 >= 1 ;\n':
            self.assertIsInstance(pbising.compile(from_opb(text)), Model)


if __name__ == '__main__':
    unittest.main()

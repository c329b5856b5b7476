"""Pictures: they are well-formed, tell what is to be seen, and notebooks show them."""
import tempfile
import unittest
import xml.dom.minidom
from pathlib import Path

from helper import CHIMERA, EXAMPLES, ISING, QUBO, command, needs_program

import pbising
from pbising import PbisingError, Source, draw, parse
from pbising.decoding import Decoding, decoded
from pbising.pictures import Bar, bars, plot_chains, plot_costs, plot_weights
from pbising.samples import states_of

SOURCE = Source(b'p wcnf 3 2 9\n2 1 2 3 0\n9 -1 -2 0\n', 'wcnf')
SAMPLES = [[0, 0, 0, 0], [1, 0, 0, 0], [1, 0, 0, 1], [1, 1, 0, 0], [1, 0, 0, 0]]


def texts(picture):
    """The texts of a picture, which has to be well-formed."""
    found = xml.dom.minidom.parseString(picture).getElementsByTagName('text')
    return [node.firstChild.data if node.firstChild else '' for node in found]


def samples(model=None):
    """Some samples of a model, one of them infeasible."""
    made = parse(QUBO.encode())
    return Decoding(decoded(made, SOURCE, states_of(made, SAMPLES)), 0, 'package', model or made)


class Pictures(unittest.TestCase):
    def test_weights_by_their_digits(self):
        self.assertEqual(texts(plot_weights(parse(QUBO.encode()))),
                         ['10 weights, the greatest 4', 'binary digits of a weight',
                          '0', '1', '2', '6', '3', '4'])
        wide = parse(f'p qubo 0 1 1 0\n0 0 {2 ** 90}\n'.encode())
        self.assertIn('88..91', texts(plot_weights(wide)))
        self.assertIn('0 weights, the greatest 0', texts(plot_weights(parse(b'p qubo 0 1 0 0'))))

    def test_costs_and_the_threshold(self):
        self.assertEqual(texts(plot_costs(samples())),
                         ['5 samples, 4 of finite cost', 'cost', '0', '3', '2', '1',
                          'infeasible', '1', 'threshold -4: cost 2'])

    def test_many_costs_are_drawn_as_ranges(self):
        rows = ''.join(f'{node} {node} {2 ** node}\n' for node in range(5))
        model = parse(f'p qubo 0 5 5 0\n{rows}'.encode())
        every = [[number >> bit & 1 for bit in range(5)] for number in range(32)]
        source = Source(f'p qubo 0 5 5 0\n{rows}'.encode(), 'qubo')
        found = texts(plot_costs(Decoding(decoded(model, source, states_of(model, every)), 0, '')))
        self.assertIn('0..2', found)
        self.assertLess(len(found), 30)
        self.assertIn('threshold', found)

    def test_names_are_escaped(self):
        self.assertEqual(texts(bars('a < b & c', '<', [Bar('<i>', 1)])),
                         ['a < b & c', '<', '<i>', '1'])

    def test_broken_chains_have_rings(self):
        model = parse(CHIMERA.encode())
        whole, broken = (draw(model, [1, 0, 0, 0, bit, 0, 0, 0]) for bit in (1, 0))
        self.assertEqual([picture.count('stroke="#c00"') for picture in (whole, broken)], [0, 2])
        self.assertIn('node 0, broken', texts(broken))
        with self.assertRaisesRegex(PbisingError, 'no model on a graph'):
            plot_chains(parse(QUBO.encode()))


class Notebooks(unittest.TestCase):
    def test_models(self):
        for text in QUBO, ISING, CHIMERA:
            page = parse(text.encode())._repr_html_()
            self.assertEqual(page.count('<svg'), 1 + (text is CHIMERA))
            self.assertIn('doubles hold each energy', page)

    def test_samples(self):
        page = samples()._repr_html_()
        self.assertIn('line 2: 1 2 3', page)
        self.assertEqual(page.count('<svg'), 1)
        model = parse(CHIMERA.encode())
        source = Source(b'p wcnf 1 1\n1 1 0\n', 'wcnf')
        found = Decoding(decoded(model, source, states_of(model, [[1, 0]])), 1, 'package', model)
        self.assertEqual(found._repr_html_().count('<svg'), 2)
        self.assertIn('100.0 %', found._repr_html_())

    def test_pictures_show_themselves(self):
        picture = draw(parse(CHIMERA.encode()))
        self.assertEqual(picture._repr_svg_(), picture)


class Commands(unittest.TestCase):
    def setUp(self):
        folder = tempfile.TemporaryDirectory()
        self.addCleanup(folder.cleanup)
        self.folder = Path(folder.name)
        for name, text in (('m', QUBO), ('c', CHIMERA), ('s.wcnf', SOURCE.text),
                           ('states', '0000\n1100\n'), ('broken', '10000000\n')):
            (self.folder / name).write_text(text)

    def plot(self, *words):
        """The texts of what `pbising plot` draws."""
        status, out, err = command('plot', *(self.folder / word[1:] if word[0] == '@' else word
                                             for word in words))
        return (status, texts(out)) if status == 0 else (status, err)

    def test_plot(self):
        self.assertIn('10 weights, the greatest 4', self.plot('@m')[1])
        self.assertIn('2 samples, 1 of finite cost',
                      self.plot('@m', '--samples', '@states', '--source', 'wcnf', '@s.wcnf')[1])
        self.assertIn('node 0, broken', self.plot('@c', '--chains', '--samples', '@broken')[1])
        self.assertIn('node 0', self.plot('@c', '--chains')[1])
        for words in (['@m', '--chains'], ['@m', '--samples', '@states'], ['@nowhere'],
                      ['@m', '--samples', '@s.wcnf', '--source', 'wcnf', '@s.wcnf']):
            status, error = self.plot(*words)
            self.assertEqual((status, error.count('\n')), (2, 1), error)

    @needs_program
    def test_a_compiled_model_knows_its_samples(self):
        model = pbising.compile(EXAMPLES / 'timetable.wcnf')
        found = texts(plot_costs(model.decode(pbising.anneal(model, 3, 50))))
        self.assertIn('threshold -153: cost 18', found)


if __name__ == '__main__':
    unittest.main()

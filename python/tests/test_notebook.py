"""The notebook page of the guide's first example, run without a notebook."""
import os
import unittest

from helper import ROOT, needs_program
from notebook import cells, notebook, page, run, shown


class Page(unittest.TestCase):
    def test_cells(self):
        found = cells()
        self.assertIn('timetable.wcnf', found[0])
        self.assertEqual([cell['source'] for cell in notebook(found)['cells']], found)
        self.assertEqual(run('print(2)\n3 + 4', {}), ('2\n', 7))
        self.assertEqual((shown(7), shown(None)), ('<pre>7</pre>', ''))

    @needs_program
    def test_page(self):
        self.addCleanup(os.chdir, os.getcwd())
        os.chdir(ROOT)
        made = page(cells())
        self.assertEqual(made.count('<svg'), 4)
        for text in ('cost 1: 10', 'threshold -153: cost 18', 'node 0, broken', '<b>Model</b>'):
            self.assertIn(text, made)


if __name__ == '__main__':
    unittest.main()

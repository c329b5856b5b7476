"""The Python blocks of the documents print what stands there."""
import contextlib
import importlib.util
import io
import os
import re
import unittest

from helper import ROOT, knows, needs_program

DOCUMENTS = ('python/README.md', 'README.md', 'docs/GUIDE.md')
BLOCK = re.compile(r'```python\n(.*?)```\n+```output\n(.*?)```', re.DOTALL)


def missing(code):
    """Whether a block imports a module that is not installed, or asks the program for a target that
    it does not know."""
    modules = re.findall(r'^(?:import|from) +(\w+)', code, re.MULTILINE)
    return (any(importlib.util.find_spec(name) is None for name in modules)
            or "target='graph'" in code and not knows('graph', graph='', map=''))


@needs_program
class Documents(unittest.TestCase):
    def setUp(self):
        self.addCleanup(os.chdir, os.getcwd())
        os.chdir(ROOT)

    def test_each_block(self):
        for name in DOCUMENTS:
            text = (ROOT / name).read_text(encoding='utf-8')
            blocks = BLOCK.findall(text)
            self.assertEqual(len(blocks), text.count('```python\n'), name)
            self.assertGreater(len(blocks), 0, name)
            for code, wanted in blocks:
                if missing(code):
                    continue
                with self.subTest(document=name, code=code):
                    out = io.StringIO()
                    with contextlib.redirect_stdout(out):
                        exec(code, {})
                    self.assertEqual(out.getvalue(), wanted)


if __name__ == '__main__':
    unittest.main()

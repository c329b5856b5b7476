"""The package and a user's file pass mypy, where it is at hand."""
import shutil
import subprocess
import tempfile
import unittest
from pathlib import Path

from helper import ROOT

USER = '''
from typing import Dict, FrozenSet, List, Optional, Tuple

import pbising

pairs: Dict[Tuple[str, str], float] = {('a', 'b'): -2.0}
products: Dict[FrozenSet[str], int] = {frozenset('ab'): 1}
fields: Dict[str, int] = {'a': 1}
sources = [pbising.from_qubo(pairs), pbising.from_ising(fields, pairs),
           pbising.from_polynomial(products), pbising.from_qubo([[1, 2], [0, 1]]),
           pbising.from_constraints([(fields, '>=', 1)], fields)]
model: pbising.CompiledModel = pbising.compile(sources[0], target='ising', unit='reduce')
decoding: pbising.Decoding = model.decode(pbising.anneal(model))
best: pbising.Decoded = decoding[0]
some: List[pbising.Decoded] = decoding[:2]
cost: Optional[int] = decoding.best.cost
text: str = model.text
optimum: Optional[int] = model.solve().optimum
'''


UNTYPED = ()


@unittest.skipUnless(shutil.which('mypy'), 'mypy is not installed')
class Types(unittest.TestCase):
    def test_the_package_and_a_users_file(self):
        with tempfile.TemporaryDirectory() as folder:
            user = Path(folder) / 'user.py'
            user.write_text(USER)
            done = subprocess.run(['mypy', '--strict', '--cache-dir', str(Path(folder) / 'cache'),
                                   'pbising', str(user)], cwd=ROOT / 'python', check=False,
                                  stdout=subprocess.PIPE, universal_newlines=True)
        errors = [line for line in done.stdout.split('\n')
                  if ': error: ' in line and not line.startswith(UNTYPED)]
        self.assertEqual(errors, [], done.stdout)


if __name__ == '__main__':
    unittest.main()

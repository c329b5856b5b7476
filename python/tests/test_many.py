"""Many files over executors."""
import importlib.util
import os
import pickle
import subprocess
import sys
import tempfile
import unittest
from concurrent.futures import ProcessPoolExecutor, ThreadPoolExecutor
from pathlib import Path

from helper import EXAMPLES, ROOT, needs_program

import pbising
from pbising import (EmbeddingError, LimitError, PbisingError, StateError, TextError, UsageError,
                     compile_many, decode_many)

NAMES = ('timetable.wcnf', 'knapsack.opb', 'roster.wbo', 'cut.poly', 'seats.qubo', 'groups.ising')
CLUSTER = """
import sys
from dask.distributed import Client, LocalCluster
import pbising
if __name__ == '__main__':
    with LocalCluster(n_workers=2, threads_per_worker=1, dashboard_address=None) as cluster:
        with Client(cluster) as client:
            for model in pbising.compile_many(sys.argv[1:], client.get_executor()):
                print(model.nodes)
"""


class Errors(unittest.TestCase):
    def test_errors_travel(self):
        for fault in (TextError('f', 3, 'word', 'a', 'b'), TextError('f', 3, 'end'),
                      PbisingError('x'), UsageError(2, 'usage'), LimitError(6, ''),
                      EmbeddingError(7, 'not'), StateError(8, 'line')):
            again = pickle.loads(pickle.dumps(fault))
            self.assertEqual((type(again), str(again), vars(again)),
                             (type(fault), str(fault), vars(fault)))


@needs_program
class Many(unittest.TestCase):
    def setUp(self):
        folder = tempfile.TemporaryDirectory()
        self.addCleanup(folder.cleanup)
        bad = Path(folder.name, 'bad.opb')
        bad.write_text('min: x ;\n')
        self.files = [*(EXAMPLES / name for name in NAMES), bad, Path(folder.name, 'nowhere.opb')]
        self.wanted = [pbising.compile(file).weights() for file in self.files[:-2]]

    def agree(self, executor):
        """All results are in their places, the errors too."""
        models = compile_many(self.files, executor, unit='one')
        self.assertEqual([model.weights() for model in models[:-2]], self.wanted)
        self.assertIsInstance(models[-2], TextError)
        self.assertRegex(str(models[-1]), 'cannot read')
        samples = [[0] * getattr(model, 'nodes', 1) for model in models]
        found = decode_many(models, samples, executor)
        self.assertEqual(found[-2:], models[-2:])
        costs = [model.decode(state).best.cost for model, state in zip(models[:-2], samples)]
        self.assertEqual([one.best.cost for one in found[:-2]], costs)

    def test_one_after_the_other(self):
        self.agree(None)

    def test_threads(self):
        with ThreadPoolExecutor(3) as executor:
            self.agree(executor)

    def test_processes(self):
        with ProcessPoolExecutor(2) as executor:
            found = compile_many([*self.files[:2], *self.files[-2:]], executor)
        self.assertEqual([model.weights() for model in found[:2]], self.wanted[:2])
        self.assertIsInstance(found[2], TextError)

    def test_samples_that_do_not_fit(self):
        models = compile_many(self.files[:2])
        found = decode_many(models, [[0] * models[0].nodes, [0, 1]])
        self.assertEqual(found[0].by, 'program')
        self.assertRegex(str(found[1]), 'it has 2 values')

    def test_keys_that_are_wrong(self):
        for found in compile_many(self.files[:2], high='low'):
            self.assertIsInstance(found, UsageError)

    @unittest.skipUnless(importlib.util.find_spec('distributed'), 'distributed is not installed')
    def test_two_workers_of_dask(self):
        with tempfile.TemporaryDirectory() as folder:
            script = Path(folder, 'cluster.py')
            script.write_text(CLUSTER)
            env = {**os.environ, 'PYTHONPATH': str(ROOT / 'python')}
            done = subprocess.run([sys.executable, script, *self.files[:4]], cwd=folder, env=env,
                                  check=False, stdout=subprocess.PIPE, stderr=subprocess.PIPE)
        wanted = [pbising.compile(file).nodes for file in self.files[:4]]
        self.assertEqual(list(map(int, done.stdout.split())), wanted, done.stderr.decode())


if __name__ == '__main__':
    unittest.main()

#!/usr/bin/env python3
"""Makes a notebook page of the first Python example of docs/GUIDE.md, with what its model and its
samples show of themselves, and of an embedding with a broken chain; and a picture of the page.

    notebook.py FOLDER

The folder gets page.ipynb, page.html and page.png. nbconvert runs the cells where it is at hand,
and else this script itself; the picture is made by chromium. What is missing is skipped with a line
that says so.
"""
import ast
import contextlib
import html
import importlib.util
import io
import json
import os
import re
import shutil
import subprocess
import sys
from pathlib import Path

ROOT = Path(__file__).resolve().parents[2]
BLOCK = re.compile(r'```python\n(.*?)```', re.DOTALL)
MORE = ['model', 'samples',
        "model = pbising.compile('examples/cut.poly', target='chimera', rows=2, cols=2, shore=2,\n"
        "                        embed='clique')\n"
        'state = pbising.anneal(model, reads=1)[0]\n'
        'state[0] = 1 - state[0]\n'
        'model.decode([state])']
BROWSERS = ('chromium', 'chromium-browser', 'google-chrome')


def cells():
    """The cells of the page: the first example that needs no other module, and what it shows."""
    blocks = BLOCK.findall((ROOT / 'docs' / 'GUIDE.md').read_text(encoding='utf-8'))
    example = next(block for block in blocks if 'import pbising' in block and 'dimod' not in block)
    return [example.rstrip(), *MORE]


def notebook(found):
    """The cells as a notebook file."""
    return {'nbformat': 4, 'nbformat_minor': 5,
            'metadata': {'kernelspec': {'name': 'python3', 'display_name': 'Python 3',
                                        'language': 'python'}},
            'cells': [{'cell_type': 'code', 'id': f'cell{at}', 'metadata': {}, 'outputs': [],
                       'execution_count': None, 'source': code} for at, code in enumerate(found)]}


def shown(value):
    """What a notebook shows of a value."""
    for name in '_repr_html_', '_repr_svg_':
        if hasattr(value, name):
            return getattr(value, name)()
    return '' if value is None else f'<pre>{html.escape(repr(value))}</pre>'


def run(code, names):
    """What a cell prints, and the value of its last line where that is an expression."""
    tree, out, value = ast.parse(code), io.StringIO(), None
    last = tree.body.pop() if isinstance(tree.body[-1], ast.Expr) else None
    with contextlib.redirect_stdout(out):
        exec(compile(tree, 'cell', 'exec'), names)
        if last is not None:
            value = eval(compile(ast.Expression(last.value), 'cell', 'eval'), names)
    return out.getvalue(), value


def page(found):
    """The cells and their outputs as HTML."""
    names = {}
    parts = ['<!doctype html><meta charset="utf-8"><body style="font-family:sans-serif">']
    for code in found:
        printed, value = run(code, names)
        parts.append(f'<pre style="background:#eee;padding:6px">{html.escape(code)}</pre>')
        if printed:
            parts.append(f'<pre>{html.escape(printed)}</pre>')
        parts.append(shown(value))
    return '\n'.join([*parts, '</body>'])


def converted(found):
    """The page as nbconvert makes it, or None."""
    if None in map(importlib.util.find_spec, ('nbconvert', 'ipykernel')):
        print('nbconvert or ipykernel is not installed: the cells are run here')
        return None
    import nbformat
    from nbconvert import HTMLExporter
    from nbconvert.preprocessors import ExecutePreprocessor
    os.environ['PYTHONPATH'] = str(ROOT / 'python')
    book = nbformat.from_dict(notebook(found))
    ExecutePreprocessor(timeout=120).preprocess(book, {'metadata': {'path': str(ROOT)}})
    return HTMLExporter().from_notebook_node(book)[0]


def photograph(folder):
    """A picture of the page."""
    browser = next(filter(None, map(shutil.which, BROWSERS)), None)
    if browser is None:
        print('chromium is not installed: there is no picture')
        return
    subprocess.run([browser, '--headless', '--no-sandbox', '--disable-gpu', '--hide-scrollbars',
                    f'--user-data-dir={folder / "browser"}', '--window-size=900,2300',
                    f'--screenshot={folder / "page.png"}', (folder / 'page.html').as_uri()],
                   check=False, timeout=240, stderr=subprocess.DEVNULL)


def main():
    """Makes the page and its picture."""
    if len(sys.argv) != 2:
        print(__doc__.strip())
        return 2
    folder = Path(sys.argv[1]).resolve()
    folder.mkdir(parents=True, exist_ok=True)
    sys.path.insert(0, str(ROOT / 'python'))
    os.chdir(ROOT)
    (folder / 'page.ipynb').write_text(json.dumps(notebook(cells())))
    (folder / 'page.html').write_text(converted(cells()) or page(cells()), encoding='utf-8')
    photograph(folder)
    print(*(file.name for file in sorted(folder.glob('page.*'))))
    return 0


if __name__ == '__main__':
    sys.exit(main())

"""What models, samples and embeddings look like: SVG, and HTML for notebooks.

Weights are counted by their binary digits, samples by their costs. Nothing but text is made, so
nothing is needed to make it.
"""
from __future__ import annotations

from collections import Counter
from html import escape
from itertools import chain
from typing import Any, Iterable, Iterator, List, NamedTuple, Optional, Sequence, Tuple

from .decoding import Decoded, Decoding
from .drawing import BLUE, ORANGE, Svg, draw, drawable
from .models import Model

WIDTH, HEIGHT, LEFT, TOP, FOOT = 640, 230, 20, 44, 44
MOST_BARS, MOST_QUBITS, MOST_VALUES, MOST_JUDGED = 24, 512, 24, 200


class Bar(NamedTuple):
    """A bar: what stands below it, how high it is, and its colour."""

    label: str
    times: int
    colour: str = BLUE


def bars(title: str, below: str, found: Sequence[Bar],
         line: Optional[Tuple[int, str]] = None) -> Svg:
    """A picture of bars side by side, with a dashed line before one of them where that is asked
    for: its number and a text."""
    return Svg(''.join(f'{part}\n' for part in _chart(title, below, found, line)))


def _chart(title: str, below: str, found: Sequence[Bar],
           line: Optional[Tuple[int, str]]) -> Iterator[str]:
    yield (f'<svg xmlns="http://www.w3.org/2000/svg" width="{WIDTH}" height="{HEIGHT}" '
           f'viewBox="0 0 {WIDTH} {HEIGHT}" font-family="sans-serif" font-size="12">')
    yield f'<rect width="{WIDTH}" height="{HEIGHT}" fill="white"/>'
    yield _text(LEFT, 20, title, 'start', 'font-weight="bold"')
    yield _text(WIDTH / 2, HEIGHT - 8, below)
    step = (WIDTH - 2 * LEFT) / max(len(found), 6)
    room, floor = HEIGHT - TOP - FOOT, HEIGHT - FOOT
    most = max((bar.times for bar in found), default=0)
    for at, bar in enumerate(found):
        tall = room * bar.times / (most or 1)
        middle = LEFT + step * (at + 0.5)
        yield (f'<rect x="{middle - 0.4 * step:.1f}" y="{floor - tall:.1f}" '
               f'width="{0.8 * step:.1f}" height="{tall:.1f}" fill="{bar.colour}"/>')
        yield _text(middle, floor + 16, bar.label)
        if bar.times:
            yield _text(middle, floor - tall - 4, bar.times)
    yield f'<path d="M{LEFT} {floor}H{WIDTH - LEFT}" stroke="#444"/>'
    if line:
        x = LEFT + step * line[0]
        yield f'<path d="M{x:.1f} {TOP - 12}V{floor}" stroke="#c00" stroke-dasharray="5 4"/>'
        end = 'end' if x > WIDTH / 2 else 'start'
        yield _text(x + (-6 if end == 'end' else 6), TOP - 4, line[1], end, 'fill="#c00"')
    yield '</svg>'


def _text(x: float, y: float, text: object, anchor: str = 'middle', more: str = '') -> str:
    return f'<text x="{x:.1f}" y="{y:.1f}" text-anchor="{anchor}" {more}>{escape(str(text))}</text>'


def plot_weights(model: Model) -> Svg:
    """How many weights have so many binary digits, which tells what a solver has to tell apart."""
    sizes = Counter(abs(weight).bit_length()
                    for weight in chain(model.fields.values(), model.couplings))
    most = max(sizes, default=0)
    counts = [sizes[digits] for digits in range(most + 1)]
    step = -(-(most + 1) // MOST_BARS)
    found = [Bar(_range(at, min(at + step - 1, most)), sum(counts[at:at + step]))
             for at in range(0, most + 1, step)]
    return bars(f'{sum(counts)} weights, the greatest {model.greatest()}',
                'binary digits of a weight', found)


def _range(low: int, high: int) -> str:
    return str(low) if low == high else f'{low}..{high}'


def plot_costs(decoding: Decoding) -> Svg:
    """How many samples have which cost, and how many are infeasible. The line is the threshold: no
    finite cost is above it."""
    costs = [(cost, count) for cost, count in decoding.costs() if cost is not None]
    total = sum(one.occurrences for one in decoding)
    found = list(_cost_bars(costs))
    line = len(found)
    infeasible = total - sum(count for _, count in costs)
    found.append(Bar('infeasible', infeasible, ORANGE))
    return bars(f'{total} samples, {total - infeasible} of finite cost', 'cost', found,
                (line, _threshold(decoding.model)))


def _cost_bars(costs: Sequence[Tuple[int, int]]) -> Iterator[Bar]:
    """A bar for each cost, or for ranges of costs where there are many."""
    if len(costs) <= MOST_BARS // 2:
        yield from (Bar(str(cost), count) for cost, count in costs)
        return
    low, high = costs[0][0], costs[-1][0]
    step = -(-(high - low + 1) // (MOST_BARS // 2))
    for start in range(low, high + 1, step):
        end = min(start + step - 1, high)
        yield Bar(_range(start, end), sum(n for cost, n in costs if start <= cost <= end))


def _threshold(model: Optional[Model]) -> str:
    """The threshold, as the cost that it stands for."""
    if model is None or model.threshold is None:
        return 'threshold'
    return f'threshold {model.threshold}: cost {(model.threshold - model.offset) // model.scale}'


def plot_chains(model: Model, state: Optional[Sequence[int]] = None) -> Svg:
    """Chains on their graph; with a state the broken ones are marked."""
    return draw(model, state)


def model_html(model: Model, title: str = 'Model') -> str:
    """A model in a notebook: its sizes and figures, its weights, and its chains where they are few.
    """
    size = model.size()
    rows = [('kind', model.kind), ('nodes', size.nodes), ('couplers', size.couplers),
            ('variables', model.variables), ('weights', f'{size.least} to {size.greatest} in size'),
            ('scale, offset', f'{model.scale}, {model.offset}'),
            ('threshold', 'none' if model.threshold is None else model.threshold),
            ('unit', model.unit), ('precision', model.precision())]
    if model.chains is not None:
        told = ' x '.join(map(str, model.shape)) if model.shape else f'a list, {model.qubits} qubits'
        rows.insert(1, ('graph', told))
        rows.insert(2, ('chains', f'{len(model.chains)} of {sum(map(len, model.chains))} qubits'))
    return _page(title, rows, [plot_weights(model), *_chains(model, None)])


def decoding_html(decoding: Decoding) -> str:
    """Samples in a notebook: the best one, what most break, a histogram of costs, and the chains
    of the best one where they are few."""
    best = decoding.best
    rows: List[Tuple[str, Any]] = [
        ('samples', f'{len(decoding)}, {len(decoding.feasible)} of finite cost'),
        ('best cost', 'infinite' if best.cost is None else best.cost),
        ('energy', best.energy), ('values', _values(best))]
    lines = decoding.broken_lines()[:5] if len(decoding) <= MOST_JUDGED else []
    total = sum(one.occurrences for one in decoding)
    rows += [(f'broken in {100 * count // total} %', f'line {part.line}: {part.text}')
             for part, count in lines]
    if decoding.chains:
        rows.append(('chains broken', f'{100 * decoding.chain_break_fraction():.1f} %'))
    pictures = [plot_costs(decoding)]
    if decoding.model is not None:
        pictures += _chains(decoding.model, best.state)
    return _page('Samples', rows, pictures)


def _values(one: Decoded) -> str:
    """The values of a sample, the first ones of many."""
    words = [f'{name} = {value}' for name, value in one.values.items()]
    return ', '.join(words[:MOST_VALUES]) + ', ..' * (len(words) > MOST_VALUES)


def _chains(model: Model, state: Optional[Sequence[int]]) -> List[Svg]:
    """The chains of a model, where a page has room for its graph."""
    room = model.nodes if model.shape else len(model.used())
    few = model.chains is not None and drawable(model) and room <= MOST_QUBITS
    return [plot_chains(model, state)] if few else []


def _page(title: str, rows: Iterable[Tuple[str, Any]], pictures: Iterable[Svg]) -> str:
    lines = [f'<div><b>{escape(title)}</b><table>']
    lines += [f'<tr><th style="text-align:left">{escape(str(name))}</th>'
              f'<td style="text-align:left">{escape(str(value))}</td></tr>' for name, value in rows]
    return '\n'.join([*lines, '</table>', *pictures, '</div>'])

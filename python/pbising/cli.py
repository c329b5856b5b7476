"""The command `pbising`: what stands around the program, for shells.

Each command ends with 0; with 1 where it judges and something is not well; and with 2 and one line
on the error output where a word or a file is not what it takes.
"""
from __future__ import annotations

import argparse
import ast
import os
import sys
from typing import (Any, Callable, Dict, Iterable, List, NamedTuple, NoReturn, Optional, Sequence,
                    Tuple)

from . import __version__, front, neighbours
from .annealing import anneal
from .compiling import Request, words_of
from .decoding import Decoded, Decoding, decoded
from .drawing import draw
from .elimination import SOLVE_WIDTH, certificate, elimination_order, file_width
from .errors import PbisingError
from .exports import qpbo_notes, to_coo, to_qpbo
from .graphs import chain_map, dead, read_dead, working_lists
from .hardware import hardware, listed
from .judging import check_variables, judge, judged_keys, told_model
from .keys import FORMATS, stands
from .models import FIGURES, Model, load, parse
from .pictures import plot_chains, plot_costs, plot_weights
from .program import find_program
from .samples import Sample, first_state, text_assignments, text_samples, written
from .search import completed, least_state
from .sources import Source, source_of
from .texts import called, read_bytes, text_of

Words = argparse.Namespace


class _Parser(argparse.ArgumentParser):
    """A parser whose errors are one line."""

    def error(self, message: str) -> NoReturn:
        self.exit(2, f'{self.prog}: {message}; see {self.prog} --help\n')


def _say(lines: Iterable[str]) -> None:
    """Writes lines to the output."""
    sys.stdout.writelines(f'{line}\n' for line in lines)


def _note(text: str) -> None:
    """Writes a line to the error output, behind what was written to the other."""
    sys.stdout.flush()
    print(text, file=sys.stderr)


def _text(name: str) -> str:
    return text_of(read_bytes(name))


def _count(word: str) -> int:
    """A number of at least 1, as an option has it."""
    if not word.isdecimal() or not 0 < len(word) < 19 or int(word) < 1:
        raise argparse.ArgumentTypeError(f'{word} is no whole number of at least 1')
    return int(word)


def _anneal(words: Words) -> None:
    model = load(words.MODEL)
    states = anneal(model, words.reads, words.sweeps, words.seed)
    if words.all:
        _say(map(written, states))
        return
    energies = [model.energy(state) for state in states]
    best = energies.index(min(energies))
    _say([written(states[best]), f'energy {energies[best]}'])


def _request(words: Words, target: str) -> Request:
    """The problem and the keys of a command."""
    keys = {}
    for word in words.KEY:
        key, equals, value = word.partition('=')
        if not equals:
            raise PbisingError(f'{word} is no key=value')
        keys[key] = value
    return Request(source_of(words.FILE, words.FORMAT), target, words_of(keys))


def _judge(words: Words) -> int:
    data = read_bytes(words.MODEL)
    model = parse(data, called(words.MODEL))
    request = _request(words, model.kind)
    if words.all:
        return _judge_all(words, model, data, request)
    state = first_state(_text(words.STATE), model.nodes, called(words.STATE))
    judgement = judge(model, called(words.MODEL), data, request, state)
    _say(judgement.lines)
    return 0 if judgement.well else 1


def _judge_all(words: Words, model: Model, data: bytes, request: Request) -> int:
    """The table of all samples of a file, and the best of them."""
    check_variables(model, called(words.MODEL), request.source)
    same, keys = judged_keys(called(words.MODEL), data, request)
    _say([told_model(model), keys])
    samples = _samples(model, words.STATE)
    decoding = Decoding(decoded(model, request.source, samples), len(model.chains or ()), 'package')
    best = decoding.best
    _say([*decoding.table(), f'best {written(best.state)}',
          f'cost {best.cost if best.feasible else "infinite"}', f'energy {best.energy}'])
    return 0 if best.feasible and same is not False else 1


def _samples(model: Model, name: str) -> List[Sample]:
    """All samples of a file; what they leave out has the bits of the least energy."""
    found = [Sample(completed(model, known if isinstance(known, dict) else dict(enumerate(known))))
             for known in text_samples(model, _text(name))]
    if not found:
        raise PbisingError(f'{called(name)}: no state of {model.nodes} bits, no sample and '
                           'no v line')
    return found


def _to_state(words: Words) -> None:
    model = load(words.MODEL)
    if words.assignment:
        _say([_assignment(model, words.ANSWER)])
        return
    samples = _samples(model, words.ANSWER)
    if words.all:
        _say(written(sample.state) for sample in samples)
        return
    if words.source:
        best = _best_by_cost(model, source_of(words.source[1], words.source[0]), samples)
        told = f', cost {"infinite" if best.cost is None else best.cost}, the least'
        state, energy = best.state, best.energy
    else:
        energies = [model.energy(sample.state) for sample in samples]
        energy, told = min(energies), ', the least'
        state = samples[energies.index(energy)].state
    _say([written(state)])
    _note(f'energy {energy}' + (f'{told} of {len(samples)} states' if len(samples) > 1 else ''))


def _best_by_cost(model: Model, source: Source, samples: Sequence[Sample]) -> Decoded:
    """The sample whose assignment costs least."""
    check_variables(model, 'the model', source)
    return Decoding(decoded(model, source, samples), 0, 'package').best


def _assignment(model: Model, name: str) -> str:
    """The assignment of the first `v` line, or else of the best sample, as `extend` takes it."""
    found = next(text_assignments(_text(name).split('\n'), model.variables), None)
    if found is None:
        best = min((sample.state for sample in _samples(model, name)), key=model.energy)
        return written(model.assignment(best))
    missing = [variable for variable in range(model.variables) if variable not in found]
    if missing:
        raise PbisingError(f'{called(name)}: nothing is said of variable {missing[0] + 1}')
    return written(found[variable] for variable in range(model.variables))


def _to_coo(words: Words) -> None:
    _say(to_coo(load(words.MODEL)))


def _to_qpbo(words: Words) -> None:
    model = load(words.MODEL)
    _say(to_qpbo(model))
    for text in qpbo_notes(model):
        _note(text)


def _to_dead(words: Words) -> None:
    shape = words.ROWS, words.COLS, words.SHORE
    if 2 * shape[0] * shape[1] * shape[2] > 2 ** 20:
        raise PbisingError('a graph has at most 2^20 qubits')
    try:
        sys.stdout.write(dead(working_lists(_text(words.WORKING)), *shape))
    except ValueError as fault:
        raise PbisingError(f'{called(words.WORKING)}: {fault}') from None


def _to_graph(words: Words) -> None:
    try:
        sys.stdout.write(hardware(listed(_text(words.GRAPH))))
    except PbisingError as fault:
        raise PbisingError(f'{called(words.GRAPH)}: {fault}') from None


def _to_map(words: Words) -> None:
    try:
        chains = ast.literal_eval(_text(words.CHAINS).strip())
        sys.stdout.write(chain_map({int(node): chain for node, chain in chains.items()}))
    except PbisingError as fault:
        raise PbisingError(f'{called(words.CHAINS)}: {fault}') from None
    except (ValueError, SyntaxError, AttributeError, TypeError, MemoryError, RecursionError):
        raise PbisingError(f'{called(words.CHAINS)}: no dict of chains by nodes, as '
                           '{0: [0, 4], 1: [1]}') from None


def _certificate(words: Words) -> None:
    found = certificate(load(words.MODEL))
    sys.stdout.write(found.text)
    if words.state:
        with open(words.state, 'w', encoding='ascii') as file:
            print(written(found.state), file=file)
    _note(f'{len(found.lines)} lines, no node with more than {found.width} neighbours')


def _elimination_order(words: Words) -> None:
    model = load(words.MODEL)
    width = file_width(model, 10 ** 9)[1] if model.nodes <= 2000 else None
    order = elimination_order(model, words.most)
    _say(map(str, order.nodes))
    told = f'; {width} in the order of the file' if width is not None else ''
    _note(f'no node has more than {order.width} neighbours, by {order.name}{told}')


def _widths(words: Words) -> int:
    node, width = file_width(load(words.MODEL))
    if width > SOLVE_WIDTH:
        _say([f'too wide: node {node} has {width} neighbours'])
        return 1
    _say([f'widest: node {node} has {width} neighbours, and `solve` takes {SOLVE_WIDTH}'])
    return 0


def _draw(words: Words) -> None:
    model = load(words.MODEL)
    state = first_state(_text(words.state), model.nodes, words.state) if words.state else None
    if words.dead and model.shape is None:
        raise PbisingError(f'{called(words.MODEL)}: dead parts are those of a Chimera graph, and '
                           'this is no model on one')
    parts = (read_dead(_text(words.dead), words.dead, model.shape) if words.dead and model.shape
             else [])
    try:
        sys.stdout.write(draw(model, state, parts, words.strengths))
    except PbisingError as fault:
        raise PbisingError(f'{called(words.MODEL)}: {fault}') from None


def _plot(words: Words) -> None:
    model = load(words.MODEL)
    samples = _samples(model, words.samples) if words.samples else []
    if words.chains:
        best = min((sample.state for sample in samples), key=model.energy, default=None)
        picture = plot_chains(model, best)
    elif samples:
        if not words.source:
            raise PbisingError('costs are those of a problem: name it by --source FORMAT FILE')
        source = source_of(words.source[1], words.source[0])
        check_variables(model, called(words.MODEL), source)
        picture = plot_costs(Decoding(decoded(model, source, samples), 0, 'package', model))
    else:
        picture = plot_weights(model)
    sys.stdout.write(picture)


def _info(words: Words) -> None:
    model = load(words.MODEL)
    graph = []
    if model.chains is not None:
        qubits = sum(len(chain) for chain in model.chains)
        graph = [f'graph {" ".join(map(str, model.shape or (model.qubits,)))}',
                 f'chains {len(model.chains)} of {qubits} qubits']
    _say([f'kind {model.kind}', f'nodes {model.nodes}', f'couplers {model.couplers}', *graph,
          *(f'{figure} {getattr(model, figure)}' for figure in FIGURES), model.precision()])


def _least_state(words: Words) -> None:
    model = load(words.MODEL)
    state = least_state(model)
    energy = model.energy(state)
    _say([f'state {written(state)}', f'energy {energy}'])
    if model.above(energy):
        _say(['infeasible'])
        return
    _say([f'cost {model.cost(energy)}', f'assignment {written(model.assignment(state))}'])


def _from(words: Words) -> None:
    read = getattr(neighbours, words.command.replace('-', '_'))
    source = read(words.FILE, hard=not words.soft) if 'soft' in words else read(words.FILE)
    sys.stdout.write(source.text)


def _program(_: Words) -> None:
    _say([find_program()])


class Word(NamedTuple):
    """A word or an option of a command."""

    name: str
    help: str
    more: Dict[str, Any] = {}


MODEL = Word('MODEL', 'a QUBO file, an Ising file, or one on a graph; - is the standard input')
MODEL_OR_INPUT = Word('MODEL', 'a model; without it the standard input', {'nargs': '?',
                                                                          'default': '-'})
FORMAT = Word('FORMAT', f'the format of FILE: {", ".join(FORMATS)}', {'choices': FORMATS,
                                                                      'metavar': 'FORMAT'})
KEYS = Word('KEY', 'the keys that the model was made with, as high=rosenberg',
            {'nargs': '*', 'metavar': 'KEY=VALUE', 'default': []})
ALL = {'action': 'store_true'}


class Command(NamedTuple):
    """A command: what it does in a line, the function, and its words."""

    help: str
    run: Callable[[Words], Optional[int]]
    words: Tuple[Word, ...]


COMMANDS = {
    'anneal': Command('look for a state of little energy by simulated annealing', _anneal, (
        MODEL,
        Word('--reads', 'how many times to begin anew (10)', {'type': _count, 'default': 10}),
        Word('--sweeps', 'how many sweeps a read has (1000)', {'type': _count, 'default': 1000}),
        Word('--seed', 'the same seed gives the same answer (1)', {'type': int, 'default': 1}),
        Word('--all', 'write the best state of each read, a line each', ALL))),
    'judge': Command('tell what a state breaks, and whether the keys are the model\'s', _judge, (
        FORMAT, Word('FILE', 'the problem'), MODEL,
        Word('STATE', 'a file with a state of MODEL'), KEYS,
        Word('--all', 'judge all samples of STATE: a table of costs and broken lines', ALL))),
    'to-state': Command('make a line that `decode` takes of what a solver wrote', _to_state, (
        MODEL, Word('ANSWER', 'what the solver wrote; without it the standard input',
                    {'nargs': '?', 'default': '-'}),
        Word('--source', 'take the sample that costs least in this problem, not the one of least '
             'energy', {'nargs': 2, 'metavar': ('FORMAT', 'FILE')}),
        Word('--assignment', 'write the assignment, for `extend`', ALL),
        Word('--all', 'write all samples, a line each, for `evaluate`', ALL))),
    'to-coo': Command('write a model as the COO text that dimod reads', _to_coo, (MODEL,)),
    'to-qpbo': Command('write a model for toulbar2', _to_qpbo, (MODEL,)),
    'to-dead': Command('write the file of dead parts for dead=, of what works', _to_dead, (
        Word('ROWS', 'rows of cells', {'type': _count}),
        Word('COLS', 'columns of cells', {'type': _count}),
        Word('SHORE', 'qubits on each side of a cell', {'type': _count}),
        Word('WORKING', 'lists of qubits and couplers, as JSON or Python prints them'))),
    'to-graph': Command('write the file of a graph of qubits, of what a tool says of it', _to_graph, (
        Word('GRAPH', 'a list of edges, a line each, or JSON: a list, a dict of neighbours, or '
             'nodelist and edgelist; - is the standard input'),)),
    'to-map': Command('write the file of chains for map=, of a dict of minorminer', _to_map,
                      (Word('CHAINS', 'a dict of chains by nodes: {0: [0, 4], 1: [1]}'),)),
    'certificate': Command('write a certificate of the least energy, for `prove`', _certificate, (
        MODEL_OR_INPUT, Word('--state', 'a file to write a least state to', {'metavar': 'STATE'}))),
    'elimination-order': Command('write an order of the nodes for order=', _elimination_order, (
        MODEL, Word('--most', f'the most neighbours that a node may have ({SOLVE_WIDTH})',
                    {'type': _count, 'default': SOLVE_WIDTH}))),
    'widths': Command('tell whether `solve` takes a model without an order', _widths,
                      (MODEL_OR_INPUT,)),
    'draw': Command('draw a model on a graph as SVG', _draw, (
        MODEL_OR_INPUT,
        Word('--state', 'make qubits of bit 0 hollow, name broken chains', {'metavar': 'STATE'}),
        Word('--dead', 'cross out what is dead', {'metavar': 'LIST'}),
        Word('--strengths', 'each tie is as thick as it is strong', ALL))),
    'plot': Command('draw the weights of a model, the costs of samples, or chains, as SVG', _plot, (
        MODEL,
        Word('--samples', 'a file of samples', {'metavar': 'FILE'}),
        Word('--source', 'draw what the samples cost in this problem',
             {'nargs': 2, 'metavar': ('FORMAT', 'FILE')}),
        Word('--chains', 'draw the chains, with the broken ones of the sample of least energy',
             ALL))),
    'info': Command('tell the kind, the size, the figures and the precision of a model', _info,
                    (MODEL,)),
    'least-state': Command('find a least state of a model of at most 24 nodes', _least_state,
                           (MODEL,)),
    'from-coo': Command('turn dimod\'s COO into a QUBO or an Ising file', _from,
                        (Word('FILE', 'a COO text with a line # vartype='),)),
    'from-rudy': Command('turn a graph of rudy into a QUBO of the maximum cut', _from,
                         (Word('FILE', 'a graph: its sizes, then i j weight, nodes from 1'),)),
    'from-opb': Command('turn `+1*x1` and `x1` of OPB files into `+1 x1` and `1 x1`', _from,
                        (Word('FILE', 'an OPB file'),)),
    'from-cnf': Command('turn a plain CNF into a weighted one', _from, (
        Word('FILE', 'a file that begins with p cnf'),
        Word('--soft', 'each broken clause costs 1; without this all are hard', ALL))),
    'program': Command('tell where the program is', _program, ()),
}


def _parser() -> argparse.ArgumentParser:
    """The parser of all commands."""
    parser = _Parser(prog='pbising', description='QUBO and Ising models by compile_program, and '
                     'tools around them: samples, graphs and proofs.')
    parser.add_argument('-V', '--version', action='version', version=f'pbising {__version__}')
    parts = parser.add_subparsers(dest='command', metavar='COMMAND', required=True,
                                  parser_class=_Parser)
    for name, part_of_program in front.PARTS.items():
        parts.add_parser(name, help=part_of_program.help)
    for name, command in COMMANDS.items():
        part = parts.add_parser(name, help=command.help, description=command.help)
        for word in command.words:
            part.add_argument(word.name, help=word.help, **word.more)
    return parser


def main(words: Optional[Sequence[str]] = None) -> int:
    """Runs a command; its status."""
    words = _without_help(sys.argv[1:] if words is None else list(words))
    command = words[0] if words else ''
    try:
        status = _status(command, words)
        sys.stdout.flush()
        return status
    except BrokenPipeError:
        os.dup2(os.open(os.devnull, os.O_WRONLY), sys.stdout.fileno())
    except OSError as fault:
        _note(f'cannot write {fault.filename}: {fault.strerror}' if fault.filename else str(fault))
    except PbisingError as fault:
        _note(str(fault))
        return front.status_of(fault) if command in front.PARTS else 2
    except KeyboardInterrupt:
        return 130
    return 2


def _status(command: str, words: List[str]) -> int:
    """Runs a command of the program, or one of the package."""
    if command in front.PARTS:
        for line in front.run(command, words[1:]):
            _note(line)
        return 0
    if command and not command.startswith('-') and command not in COMMANDS:
        every = [*front.PARTS, *COMMANDS]
        raise PbisingError(f'pbising: {stands(command, "a command", every)} (pbising --help)')
    found = _parser().parse_args(words)
    return COMMANDS[found.command].run(found) or 0


def _without_help(words: List[str]) -> List[str]:
    """`help COMMAND` as `COMMAND --help`."""
    return [*words[1:2], '--help'] if words[:1] == ['help'] else words

"""What is wrong with a state: the report of `pbising judge`."""
from __future__ import annotations

from dataclasses import dataclass
from io import BytesIO
from typing import Iterable, Iterator, List, Optional, Sequence, Tuple

from .compiling import Request
from .decoding import excess
from .errors import PbisingError, ProgramError, ProgramMissing, TextError
from .models import Model
from .problems import Part, Verdict
from .program import FileWord, find_program, first_lines
from .repair import walk_of
from .samples import written
from .sources import Source
from .texts import text_of

MOST = 10


@dataclass
class Judgement:
    """The lines of a report, and whether the keys are the model's and the cost is finite."""

    lines: List[str]
    well: bool


def judge(model: Model, name: str, data: bytes, request: Request,
          state: Sequence[int]) -> Judgement:
    """What a state breaks, and whether the keys are those of the model, whose text is `data`."""
    check_variables(model, name, request.source)
    same, keys = judged_keys(name, data, request)
    energy = model.energy(state)
    verdict = request.source.problem.judge(model.assignment(state))
    lines = [told_model(model), keys, *_of_energy(model, state, energy),
             *_of_assignment(request, model, state, energy, verdict)]
    return Judgement(lines, verdict.cost is not None and same is not False)


def check_variables(model: Model, name: str, source: Source) -> None:
    """Refuses a problem that the model cannot be of."""
    if source.problem.variables != model.variables:
        raise PbisingError(f'{source.name} has {source.problem.variables} variables, '
                           f'and {name} {model.variables}')


def told_model(model: Model) -> str:
    """The kind, the size and the precision of a model."""
    places = 'nodes' if model.chains is None else 'qubits'
    return f'model {model.kind} of {model.nodes} {places}, {model.precision()}'


def judged_keys(name: str, data: bytes, request: Request) -> Tuple[Optional[bool], str]:
    """Whether the keys are the model's; None where there is no program to ask."""
    try:
        find_program()
    except ProgramMissing as fault:
        return None, f'keys not looked at: {fault}'
    wanted = _front(map(text_of, BytesIO(data)))
    made = front_by_program(request)
    if made == wanted:
        return True, "keys as the model's"
    at = next((n for n, pair in enumerate(zip(made, wanted)) if pair[0] != pair[1]), -1)
    return False, (f"keys not the model's: with them {request.source.name} has `{made[at]}`, "
                   f'and {name} `{wanted[at]}`')


def front_by_program(request: Request) -> List[str]:
    """The front of the model that the program makes: it is stopped behind it."""
    source = request.source
    lines = first_lines(['compile', source.format, request.target,
                         FileWord(source.name, source.data), *request.keys.values()])
    try:
        return _front(lines)
    except (ProgramError, TextError) as fault:
        raise PbisingError(f'compile_program: {fault}; '
                           'give the keys that the model was made with') from None
    finally:
        lines.close()


def _front(lines: Iterable[str]) -> List[str]:
    """The figures, the chains and the line `p ..` that stand before the rows of a model."""
    found = []
    for line in lines:
        words = line.split()
        if words[:1] == ['c'] or words[:1] == ['p']:
            found.append(' '.join(words))
        if words[:1] == ['p']:
            break
    return found


def _of_energy(model: Model, state: Sequence[int], energy: int) -> Iterator[str]:
    """The energy of a state, on which side of the threshold it lies, and broken chains."""
    side = 'above' if model.above(energy) else 'not above'
    unit = f' times {model.unit}' if model.unit != 1 else ''
    where = f'{unit}, {side} the threshold {model.threshold}' if model.threshold is not None else ''
    yield f'energy {energy}{where}'
    if model.chains is None:
        return
    broken = model.broken_chains(state)
    yield f'chains {len(broken)} of {len(model.chains)} broken'
    for node in broken[:MOST]:
        chain = model.chains[node]
        yield (f'  node {node}, qubits {" ".join(map(str, chain))} with the bits '
               f'{written(state[qubit] for qubit in chain)}')


def _of_assignment(request: Request, model: Model, state: Sequence[int], energy: int,
                   verdict: Verdict) -> Iterator[str]:
    """The assignment, what it breaks and what it costs."""
    source, local = request.source, request.values().get('penalty') == 'local'
    yield f'assignment {written(model.assignment(state))}'
    hard = [part for part in source.problem.parts if part.weight is None]
    soft = [part for part in source.problem.parts if part.weight is not None]
    yield from _of_parts('hard', hard, [p for p in verdict.parts if p.weight is None], verdict)
    yield from _of_parts('soft', soft, [p for p in verdict.parts if p.weight is not None], verdict)
    yield f'cost {"infinite" if verdict.cost is None else verdict.cost}'
    over = excess(model, verdict.cost, energy) or 0
    if over > 0:
        yield f'the state is {over} above the least of its assignment: `extend` gives that one'
    if over < 0:
        yield (f'the state is {-over} below what its assignment reaches: '
               + _why_below(request, model.broken_chains(state)))
    if local and verdict.cost is None and source.has_parts:
        yield _of_repair(request, model, state)


def _why_below(request: Request, broken: List[int]) -> str:
    """Why a state lies below the least one that its assignment has by what it costs."""
    if broken:
        return 'broken chains of chain=cut'
    if request.source.format == 'wbo' and request.values().get('penalty') == 'local':
        return 'a soft constraint fails that it does not pay for, as penalty=local allows'
    return 'the assignment costs more than bound='


def _of_repair(request: Request, model: Model, state: Sequence[int]) -> str:
    """What `penalty=local` promises of a state that breaks something: that some assignment costs
    less than its energy, or that it lies above the threshold."""
    walk = walk_of(request.source, request.values())
    bits = model.assignment(state, walk.problem.variables)
    stuck = sorted({part.line for part in walk.stuck(bits)})
    if stuck:
        told = ', '.join(f'line {line}' if line else 'TOP' for line in stuck[:MOST])
        return f'no repair: these have no penalty of their own: {told}'
    found = walk.run(bits)[:model.variables]
    cost = request.source.problem.cost(found)
    return ('no repair below TOP' if cost is None
            else f'repaired, it is {written(found)} of cost {cost}')


def _of_parts(kind: str, parts: List[Part], broken: List[Part],
              verdict: Verdict) -> Iterator[str]:
    """How many parts are broken, and which."""
    if not parts:
        return
    total = sum(part.weight or 0 for part in broken)
    weight = f', of weight {total}' if kind == 'soft' else ''
    yield f'{kind} {len(broken)} of {len(parts)} broken{weight}'
    for part in broken[:MOST]:
        weight = f'weight {part.weight}: ' if kind == 'soft' else ''
        yield f'  line {part.line}: {weight}{part.told(verdict.truth)}'
    if len(broken) > MOST:
        yield f'  and {len(broken) - MOST} more'

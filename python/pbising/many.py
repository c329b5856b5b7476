"""Many files at once, over any executor of the kind that `concurrent.futures` defines: threads,
processes, MPI's (`mpi4py.futures`), Dask's (`client.get_executor()`).

Each result stands in its place, in the order of what was given. A file that is refused has its
`PbisingError` there, so that one of a thousand does not cost the others.
"""
from __future__ import annotations

from concurrent.futures import Executor
from typing import Any, Callable, Iterable, List, Optional, Sequence, Tuple, TypeVar, Union

from .compiling import CompiledModel, compile
from .decoding import Decoding
from .errors import PbisingError
from .sources import Source
from .texts import PathName

Result = TypeVar('Result')


def compile_many(files: Iterable[Union[Source, PathName]], executor: Optional[Executor] = None,
                 **keys: Any) -> List[Union[CompiledModel, PbisingError]]:
    """The models of many problems; keys are as for `compile`. Without an executor they are made
    one after the other. Files are read where the work is done, and there the program has to be."""
    return _all(_compiled, [(source, keys) for source in files], executor)


def decode_many(models: Iterable[Union[CompiledModel, PbisingError]], samples: Iterable[Any],
                executor: Optional[Executor] = None) -> List[Union[Decoding, PbisingError]]:
    """What the samples of many models mean, those of each model as `model.decode` takes them. A
    model that is an error of `compile_many` stays one."""
    return _all(_decoded, list(zip(models, samples)), executor)


def _all(work: Callable[..., Result], tasks: Sequence[Tuple[Any, ...]],
         executor: Optional[Executor]) -> List[Result]:
    """The results of all tasks, in their order."""
    if executor is None:
        return [work(*task) for task in tasks]
    futures = [executor.submit(work, *task) for task in tasks]
    return [future.result() for future in futures]


def _compiled(source: Union[Source, PathName], keys: Any) -> Union[CompiledModel, PbisingError]:
    """A model, or why there is none."""
    try:
        return compile(source, **keys)
    except PbisingError as fault:
        return fault


def _decoded(model: Union[CompiledModel, PbisingError],
             samples: Any) -> Union[Decoding, PbisingError]:
    """What samples mean, or why that is not known."""
    if isinstance(model, PbisingError):
        return model
    try:
        return model.decode(samples)
    except PbisingError as fault:
        return fault

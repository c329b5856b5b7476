"""QUBO and Ising models of MaxSAT, 0-1 programs and polynomials, around the program
`compile_program`, whose models are proved.

    model = pbising.compile('problem.opb', high='rosenberg')
    result = model.decode(sampler.sample(model.to_bqm()))
    print(result.best.cost, result.best.values, result.best.broken)
"""
__version__ = '1.0.0'

from .annealing import anneal
from .bridges import from_bqm, from_cqm
from .compiling import Answer, CompiledModel, size
from .compiling import compile as compile  # a name of the package, though a star leaves it out
from .decoding import Decoded, Decoding
from .drawing import draw
from .elimination import Certificate, Order, certificate, elimination_order
from .errors import (EmbeddingError, LimitError, PbisingError, ProgramError, ProgramMissing,
                     ProofError, ReadError, StateError, TextError, UsageError, WidthError)
from .exports import to_coo, to_qpbo
from .expressions import Condition, Expression, quicksum
from .graphs import chain_map, dead, joins_of
from .hardware import hardware
from .many import compile_many, decode_many
from .modelling import OneHot, Problem
from .models import Model, Size, load, parse
from .neighbours import from_cnf, from_coo, from_opb, from_rudy
from .problems import Broken, Clause, Constraint, SourceProblem
from .program import find_program
from .scaling import Scaled, scaled
from .search import completed, least_state
from .sources import Source
from .writers import from_constraints, from_ising, from_polynomial, from_qubo

# Without `compile`, which would take the place of Python's own: write `pbising.compile`.
__all__ = [
    'Answer', 'Broken', 'Certificate', 'Clause', 'CompiledModel', 'Condition', 'Constraint',
    'Decoded', 'Decoding', 'EmbeddingError', 'Expression', 'LimitError', 'Model', 'OneHot',
    'Order', 'PbisingError', 'Problem', 'ProgramError', 'ProgramMissing', 'ProofError',
    'ReadError', 'Scaled', 'Size', 'Source', 'SourceProblem', 'StateError', 'TextError',
    'UsageError', 'WidthError', 'anneal', 'certificate', 'chain_map', 'compile_many',
    'completed', 'dead', 'decode_many', 'draw', 'elimination_order', 'find_program', 'from_bqm',
    'from_cnf', 'from_constraints', 'from_coo', 'from_cqm', 'from_ising', 'from_opb',
    'from_polynomial', 'from_qubo', 'from_rudy', 'hardware', 'joins_of', 'least_state', 'load',
    'parse', 'quicksum', 'scaled', 'size', 'to_coo', 'to_qpbo',
]

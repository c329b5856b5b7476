"""A stand-in for dimod: what of its interface the package uses, by its conventions."""
import enum
from types import ModuleType, SimpleNamespace


class Vartype(enum.Enum):
    """The types of variables."""

    BINARY = frozenset((0, 1))
    SPIN = frozenset((-1, 1))
    INTEGER = 'INTEGER'


class Sense(enum.Enum):
    """The senses of constraints."""

    Le = '<='
    Ge = '>='
    Eq = '=='


class BinaryQuadraticModel:
    """Biases of variables and of pairs, and an offset."""

    def __init__(self, linear, quadratic, offset, vartype):
        self.linear, self.quadratic, self.offset = {}, {}, offset
        self.vartype = Vartype[vartype]
        for label, bias in linear.items():
            self.linear[label] = self.linear.get(label, 0) + bias
        for (u, v), bias in quadratic.items():
            for label in (u, v):
                self.linear.setdefault(label, 0)
            assert u != v
            self.quadratic[u, v] = self.quadratic.get((u, v), 0) + bias

    @classmethod
    def from_qubo(cls, weights, offset=0):
        """Of a dict of pairs, of which equal ones are linear."""
        return cls({u: w for (u, v), w in weights.items() if u == v},
                   {pair: w for pair, w in weights.items() if pair[0] != pair[1]}, offset, 'BINARY')

    @classmethod
    def from_ising(cls, fields, couplings, offset=0):
        """Of fields and couplings."""
        return cls(fields, couplings, offset, 'SPIN')

    @property
    def variables(self):
        """The labels."""
        return list(self.linear)

    def to_qubo(self):
        """The dict of pairs, and the offset, of a model of bits."""
        assert self.vartype is Vartype.BINARY
        return {**{(v, v): w for v, w in self.linear.items()}, **self.quadratic}, self.offset

    def energy(self, sample):
        """The energy of a dict of values."""
        return (self.offset + sum(w * sample[v] for v, w in self.linear.items())
                + sum(w * sample[u] * sample[v] for (u, v), w in self.quadratic.items()))


class SampleSet:
    """Samples with an energy and vectors each."""

    def __init__(self, rows, variables, vartype, vectors):
        self.variables, self.vartype = variables, Vartype[vartype]
        wrapped = {name: SimpleNamespace(tolist=lambda values=values: list(values))
                   for name, values in vectors.items()}
        self.record = SimpleNamespace(sample=SimpleNamespace(tolist=lambda: rows), **wrapped)
        self.rows, self.vectors = rows, vectors

    @classmethod
    def from_samples(cls, samples_like, vartype, energy, num_occurrences=None, **vectors):
        """Of rows with their labels, or of dicts."""
        if isinstance(samples_like, tuple):
            rows, variables = samples_like
        else:
            variables = list(samples_like[0])
            rows = [[one[label] for label in variables] for one in samples_like]
        assert all(len(row) == len(variables) for row in rows)
        counts = [1] * len(rows) if num_occurrences is None else num_occurrences
        assert len(energy) == len(counts) == len(rows)
        return cls(rows, variables, vartype, {'energy': energy, 'num_occurrences': counts, **vectors})

    @property
    def first(self):
        """The sample of least energy, by labels."""
        at = min(range(len(self.rows)), key=self.vectors['energy'].__getitem__)
        return SimpleNamespace(sample=dict(zip(self.variables, self.rows[at])),
                               energy=self.vectors['energy'][at])


class ConstrainedQuadraticModel:
    """An objective and constraints over variables of some types."""

    def __init__(self, objective, vartypes=None):
        self.objective, self.constraints, self.vartypes = objective, {}, vartypes or {}

    def add(self, label, lhs, sense, rhs):
        """Adds a constraint."""
        self.constraints[label] = SimpleNamespace(lhs=lhs, sense=Sense(sense), rhs=rhs)

    def vartype(self, label):
        """The type of a variable."""
        return Vartype[self.vartypes.get(label, 'BINARY')]


class ExactSolver:
    """Tries all states."""

    def sample(self, bqm):
        """A sample set of all of them."""
        from itertools import product
        labels, values = bqm.variables, sorted(bqm.vartype.value)
        rows = [list(row) for row in product(values, repeat=len(labels))]
        energies = [bqm.energy(dict(zip(labels, row))) for row in rows]
        return SampleSet.from_samples((rows, labels), bqm.vartype.name, energies)


dimod = ModuleType('dimod')
dimod.Vartype, dimod.BinaryQuadraticModel, dimod.SampleSet = Vartype, BinaryQuadraticModel, SampleSet
dimod.ConstrainedQuadraticModel, dimod.ExactSolver = ConstrainedQuadraticModel, ExactSolver

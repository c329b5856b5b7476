"""Puts chains of qubits in the place of nodes: a second program beside the layer of chains.

    graph = read_graph(text)                              # or it raises Fault
    graph = Chimera(rows, cols, shore), graph.without(text)
    placed = Placed(made, graph, read_map(text), 'choi')  # made is a Model of spins; or NotEmbedded
"""
from itertools import chain as joint, product

from readings import Fault, lines_of, value_of
from translation import Model

MOST_QUBITS = 2 ** 20


class NotEmbedded(Exception):
    """Why chains do not fit a model or a graph."""


# ---- graphs

class Complete:
    """A graph that joins each two of the most qubits that there can be."""

    def exists(self, qubit):
        """Whether there is such a qubit."""
        return 0 <= qubit < MOST_QUBITS

    def joined(self, one, other):
        """Whether two qubits are joined."""
        return one != other and self.exists(one) and self.exists(other)


class Graph:
    """The qubits that a file names, each with those that it is joined to."""

    def __init__(self, parts):
        self.joins = {}
        for one, *others in parts:
            self.joins.setdefault(one, set()).update(others)
            for other in others:
                self.joins.setdefault(other, set()).add(one)
        self.qubits = max(self.joins, default=-1) + 1
        self.row = f'c graph {self.qubits}'

    def exists(self, qubit):
        """Whether there is such a qubit."""
        return qubit in self.joins

    def joined(self, one, other):
        """Whether two qubits are joined."""
        return other in self.joins.get(one, ())


class Chimera:
    """Cells in rows and columns, each of two sides that are joined to each other."""

    def __init__(self, rows, cols, shore):
        self.rows, self.cols, self.shore = rows, cols, shore
        self.qubits = 2 * rows * cols * shore
        self.row = f'c chimera {rows} {cols} {shore}'
        self.gone = set()    # qubits that do not work, and pairs of them

    def place(self, qubit):
        """The row, the column, the side and the number there."""
        cell, number = divmod(qubit, self.shore)
        return *divmod(cell // 2, self.cols), cell % 2, number

    def exists(self, qubit):
        """Whether there is such a qubit, which works."""
        return 0 <= qubit < self.qubits and (qubit,) not in self.gone

    def joined(self, one, other):
        """Whether two qubits are joined, and all of it works."""
        if not self.exists(one) or not self.exists(other):
            return False
        (i, j, side, k), (p, q, far, m) = self.place(one), self.place(other)
        cell = (i, j) == (p, q) and side != far
        down = side == far == 0 and (j, k) == (q, m) and abs(i - p) == 1
        along = side == far == 1 and (i, k) == (p, m) and abs(j - q) == 1
        return (cell or down or along) and tuple(sorted((one, other))) not in self.gone

    def without(self, text):
        """The graph without the parts that a text names."""
        self.gone = {tuple(sorted(part)) for part in read_parts(text, self)}
        return self

    def clique(self, node):
        """The chain of a place of the clique."""
        i, k = divmod(node, self.shore)
        size = min(self.rows, self.cols)
        places = [(p, i, 0) for p in range(i + 1)] + [(i, q, 1) for q in range(i, size)]
        return [((p * self.cols + q) * 2 + side) * self.shore + k for p, q, side in places]

    def cliques(self, nodes):
        """The chains of a clique of so many nodes."""
        taken, places = [], min(self.rows, self.cols) * self.shore
        for node in range(places if self.gone else min(places, nodes)):
            chain = self.clique(node)
            if not self.gone or self.whole(chain) and all(self.touch(chain, one) for one in taken):
                taken.append(chain)
        if nodes > len(taken):
            raise NotEmbedded(f'{nodes} nodes for {len(taken) if self.gone else places} places')
        return taken[:nodes]

    def whole(self, chain):
        """Whether a path of qubits works."""
        return (all(map(self.exists, chain))
                and all(self.joined(*pair) for pair in zip(chain, chain[1:])))

    def touch(self, one, other):
        """Whether two chains are joined."""
        return any(self.joined(*pair) for pair in product(one, other))


# ---- texts

def number_of(word, line):
    """The number that a token is."""
    value = value_of(word)
    if value is None:
        raise Fault('number', line)
    return value


def read_parts(text, host):
    """A qubit or two that are joined a line, of a graph."""
    for line, words in lines_of(text, 'plain'):
        part = []
        for word in words:
            if len(part) == 2:
                raise Fault('extra', line)
            part.append(number_of(word, line))
            if not (host.joined(*part) if len(part) == 2 else host.exists(*part)):
                raise Fault('range', line)
        yield part


def read_graph(text):
    """The graph of all that works."""
    return Graph(read_parts(text, Complete()))


def read_map(text):
    """A chain a line, with its node in front."""
    chains = []
    for line, words in lines_of(text, 'plain'):
        numbers = []
        for word in words:
            number = number_of(word, line)
            if number < 0 or not numbers and number != len(chains):
                raise Fault('range', line)
            numbers.append(number)
        chains.append(numbers[1:])
    return chains


# ---- what fits

def distances(graph, chain):
    """How far each qubit of a chain lies from its first one, where a walk inside the chain leads."""
    found, front, far = {chain[0]: 0}, [chain[0]], 0
    while front:
        far += 1
        left = [one for one in chain if one not in found]
        front = [one for one in left if any(graph.joined(one, other) for other in front)]
        found.update(dict.fromkeys(front, far))
    return found


def check_qubits(graph, chains):
    """That each chain has qubits, all of the graph, and no two the same."""
    for node, chain in enumerate(chains):
        if not chain:
            raise NotEmbedded(f'chain {node} is empty')
    for node, chain in enumerate(chains):
        for qubit in chain:
            if not graph.exists(qubit):
                raise NotEmbedded(f'chain {node} names qubit {qubit}')
    seen = set()
    for qubit in joint(*chains):
        if qubit in seen:
            raise NotEmbedded(f'qubit {qubit} is repeated')
        seen.add(qubit)


def check_walks(graph, chains):
    """That each chain hangs together."""
    for node, chain in enumerate(chains):
        reached = distances(graph, chain)
        for qubit in chain:
            if qubit not in reached:
                raise NotEmbedded(f'chain {node} does not reach qubit {qubit}')


def placed_in(made, graph, chains):
    """The least pair of joined qubits of each coupling of a model."""
    if len(chains) != made.nodes:
        raise NotEmbedded(f'{len(chains)} chains')
    check_qubits(graph, chains)
    check_walks(graph, chains)
    places = {}
    for i, j in sorted(made.couplers):
        pairs = [pair for pair in product(chains[i], chains[j]) if graph.joined(*pair)]
        if not pairs:
            raise NotEmbedded(f'no coupler between {i} and {j}')
        places[i, j] = min(tuple(sorted(pair)) for pair in pairs)
    return places


# ---- the model on qubits

def parents(graph, chain):
    """The qubit that each but the first of a chain is tied to."""
    far = distances(graph, chain)
    return {one: min(other for other in chain
                     if far[other] == far[one] - 1 and graph.joined(one, other))
            for one in chain[1:]}


def behind(tied, qubit):
    """The qubits of a chain that hang on one, with it."""
    found = [qubit]
    for one in found:
        found += [other for other, parent in tied.items() if parent == one]
    return found


def loads(model):
    """The size of each field with those of its couplings."""
    found = {node: abs(weight) for node, weight in model.linear.items()}
    for pair, weight in model.couplers.items():
        for node in pair:
            found[node] += abs(weight)
    return found


class Placed(Model):
    """A model of spins on the qubits of a graph."""

    def __init__(self, made, graph, chains, ties):
        self.__dict__.update(made.__dict__)
        places = placed_in(made, graph, chains)
        self.logical, self.graph, self.chains = made, graph, chains
        self.nodes, self.linear = graph.qubits, {}
        for node, chain in enumerate(chains):
            share, more = divmod(made.linear[node], len(chain))
            self.linear.update({qubit: share + (i < more) for i, qubit in enumerate(chain)})
        self.couplers = {places[pair]: weight for pair, weight in made.couplers.items()}
        nodes, qubits = loads(made), loads(self)
        for node, chain in enumerate(chains):
            tied = parents(graph, chain)
            for qubit, parent in tied.items():
                lighter = nodes[node]
                if ties == 'cut':
                    side = sum(qubits[one] for one in behind(tied, qubit))
                    lighter = min(side, sum(qubits[one] for one in chain) - side)
                self.tie(qubit, parent, lighter + 1)

    def tie(self, one, other, strength):
        """Ties two qubits of a chain."""
        self.couplers[min(one, other), max(one, other)] = -strength
        self.offset -= strength
        self.threshold -= strength

    def chain_rows(self):
        """The rows of the graph and its chains."""
        return [self.graph.row] + [' '.join(map(str, ['c chain', node, *chain]))
                                   for node, chain in enumerate(self.chains)]

    def read_off(self, bits):
        """The assignment that a state decodes to: of each chain what most of its qubits say."""
        found = []
        for chain in self.chains[:self.source.variables]:
            twice = 2 * sum(bits[qubit] for qubit in chain)
            found.append(bits[chain[0]] if twice == len(chain) else int(twice > len(chain)))
        return found

    def extended(self, bits):
        """The state of an assignment of the source."""
        state = [0] * self.nodes
        for chain, bit in zip(self.chains, self.logical.extended(bits)):
            for qubit in chain:
                state[qubit] = bit
        return state

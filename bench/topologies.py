"""Graphs of annealers by their published formulas, and chains on them.

    couplers = pegasus(16) or zephyr(15)        # pairs of qubits, by the numbers of their makers
    chains = embedded(pairs, nodes, couplers)   # a greedy embedding of a small form, or None

Pegasus: Boothby, Bunyk, Raymond and Roy, Next-Generation Topology of D-Wave Quantum Processors
(2020). Zephyr: Boothby, King and Raymond, Zephyr Topology of D-Wave Quantum Processors (2021).
"""
from itertools import product

VERTICAL = (2, 2, 2, 2, 10, 10, 10, 10, 6, 6, 6, 6)
HORIZONTAL = (6, 6, 6, 6, 2, 2, 2, 2, 10, 10, 10, 10)


def neighbours(couplers):
    """The qubits that each qubit is joined to."""
    near = {}
    for one, other in couplers:
        near.setdefault(one, []).append(other)
        near.setdefault(other, []).append(one)
    return near


def reached(near, first):
    """The qubits that hang together with one."""
    found, front = {first}, [first]
    for one in front:
        fresh = [other for other in near[one] if other not in found]
        found.update(fresh)
        front += fresh
    return found


def pegasus(size):
    """The couplers of the main fabric: numbers have gaps where qubits lie outside it."""
    def number(side, w, k, z):
        return ((side * size + w) * 12 + k) * (size - 1) + z
    couplers = []
    for side, w, k, z in product(range(2), range(size), range(12), range(size - 1)):
        if z + 1 < size - 1:
            couplers.append((number(side, w, k, z), number(side, w, k, z + 1)))
        if k % 2 == 0:
            couplers.append((number(side, w, k, z), number(side, w, k + 1, z)))
    for w, k, z, other in product(range(size), range(12), range(size - 1), range(12)):
        along, across = z + (other < VERTICAL[k]), w - (k < HORIZONTAL[other])
        if 0 <= across < size - 1:
            couplers.append((number(0, w, k, z), number(1, along, other, across)))
    near = neighbours(couplers)
    fabric = reached(near, number(0, 1, 0, 0))
    return [pair for pair in couplers if pair[0] in fabric]


def zephyr(size, tile=4):
    """The couplers."""
    def number(side, w, k, half, z):
        return (((side * (2 * size + 1) + w) * tile + k) * 2 + half) * size + z
    couplers = []
    for side, w, k, z in product(range(2), range(2 * size + 1), range(tile), range(size)):
        couplers.append((number(side, w, k, 0, z), number(side, w, k, 1, z)))
        if z + 1 < size:
            couplers.append((number(side, w, k, 1, z), number(side, w, k, 0, z + 1)))
            couplers += [(number(side, w, k, half, z), number(side, w, k, half, z + 1))
                         for half in range(2)]
    for w, z, k, h in product(range(size), range(size), range(tile), range(tile)):
        for i, j, a, b in product(range(2), repeat=4):
            couplers.append((number(0, 2 * w + 1 + a * (2 * i - 1), k, j, z),
                             number(1, 2 * z + 1 + b * (2 * j - 1), h, i, w)))
    return couplers


# ---- chains

def spread(near, free, chain, most):
    """How far each free qubit is from a chain, up to a bound, and the next on the way there."""
    far, before, front = {}, {}, list(chain)
    for one in front:
        if far.get(one, 0) == most:
            break
        for other in near[one]:
            if other in free and other not in far:
                far[other] = far.get(one, 0) + 1
                before[other] = one if one in far else None
                front.append(other)
    return far, before


def meeting(near, free, standing):
    """A free qubit that is near to some chains, or None."""
    most = 1
    while most <= len(free):
        ways = [spread(near, free, chain, most)[0] for chain in standing]
        common = set(ways[0]).intersection(*ways[1:])
        if common:
            return min(common, key=lambda one: (sum(far[one] for far in ways), one))
        most *= 2
    return None


def connect(near, free, one, other):
    """Lets two chains grow until they are joined. Whether they are."""
    if any(qubit in other for member in one for qubit in near[member]):
        return True
    far, before = spread(near, free, other, len(free))
    ends = [qubit for member in one for qubit in near[member] if qubit in far]
    if not ends:
        return False
    way = [min(ends, key=lambda qubit: (far[qubit], qubit))]
    while before[way[-1]] is not None:
        way.append(before[way[-1]])
    half = (len(way) + 1) // 2
    one += way[:half]
    other += reversed(way[half:])
    free.difference_update(way)
    return True


def grow(near, free, standing, draw):
    """A chain of free qubits that is joined to each of some chains, which grow too; or None."""
    if not free:
        return None
    root = meeting(near, free, standing) if standing else draw.choice(sorted(free))
    if root is None:
        return None
    free.discard(root)
    chain = [root]
    return chain if all(connect(near, free, chain, other) for other in standing) else None


def in_order(nodes, links):
    """The nodes so that each but the first of a component is coupled to one before it."""
    order = []
    for first in range(nodes):
        front = [first] if first not in order else []
        for one in front:
            front += [other for other in links[one] if other not in front and other not in order]
        order += front
    return order


def embedded(pairs, nodes, couplers, draw, tries=5):
    """Chains of a form with these pairs, each grown towards those that stand; None where it fails."""
    near, links = neighbours(couplers), {node: [] for node in range(nodes)}
    for i, j in pairs:
        links[i].append(j)
        links[j].append(i)
    order = in_order(nodes, links)
    for _ in range(tries):
        free, chains = set(near), {}
        for node in order:
            standing = [chains[other] for other in links[node] if other in chains]
            chain = grow(near, free, standing, draw)
            if chain is None:
                break
            chains[node] = chain
        if len(chains) == nodes:
            return [chains[node] for node in range(nodes)]
    return None


def cut_up(couplers, length, draw):
    """Chains of at most a length that take all qubits, and the pairs of chains that touch."""
    near = neighbours(couplers)
    free, owner, chains = set(near), {}, []
    for first in draw.sample(sorted(near), len(near)):
        chain = [first] if first in free else []
        free.difference_update(chain)
        while chain and len(chain) < length:
            edge = sorted({other for one in chain for other in near[one] if other in free})
            if not edge:
                break
            chain.append(draw.choice(edge))
            free.discard(chain[-1])
        owner.update(dict.fromkeys(chain, len(chains)))
        chains += [chain] if chain else []
    pairs = {tuple(sorted((owner[one], owner[other]))) for one, other in couplers}
    return chains, sorted(pair for pair in pairs if pair[0] < pair[1])

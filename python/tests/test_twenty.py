"""Problems of many kinds in a few lines each: the optimum of the model, decoded, is that of trying
all values, by costs that are written without the package."""
import unittest
from itertools import combinations, permutations, product

from helper import needs_program

from pbising import Problem, WidthError, elimination_order, least_state, quicksum

SQUARE = [(0, 1), (1, 2), (2, 3), (3, 0), (0, 2)]
HOUSE = [(0, 1), (1, 2), (2, 3), (3, 0), (2, 4), (3, 4)]


def solved(problem):
    """The optimum and the values of a problem: by elimination, or of a least state."""
    model = problem.compile()
    try:
        answer = model.solve()
        return answer.cost, answer.values
    except WidthError:
        best = model.decode([ordered(model)]).best
        return best.cost, best.values


def ordered(model):
    """A least state by elimination in a better order, or by trying all states."""
    if model.nodes <= 16:
        return least_state(model)
    return model.solve(order=elimination_order(model).nodes).state


@needs_program
class Kinds(unittest.TestCase):
    def agrees(self, problem, cost, **domains):
        """Compares with all values: a cost of None is infinite."""
        every = (dict(zip(domains, values)) for values in product(*domains.values()))
        wanted = min(found for found in map(cost, every) if found is not None)
        optimum, values = solved(problem)
        self.assertEqual((optimum, cost(values)), (wanted, wanted))

    def test_number_partitioning(self):
        numbers = {'a': 4, 'b': 5, 'c': 6, 'd': 7, 'e': 9}
        problem = Problem()
        problem.minimize(quicksum(n * problem.spin(name) for name, n in numbers.items()) ** 2)
        self.agrees(problem, lambda v: sum(n * v[name] for name, n in numbers.items()) ** 2,
                    **dict.fromkeys(numbers, (-1, 1)))

    def test_colouring(self):
        problem = Problem()
        node = [problem.one_hot(f'n{i}', ['red', 'green', 'blue']) for i in range(5)]
        for i, j in HOUSE:
            problem.add(node[i] != node[j])
        problem.minimize(quicksum(node[i]['red'] * (i + 1) for i in range(5)))
        self.agrees(problem, lambda v: None if any(v[f'n{i}'] == v[f'n{j}'] for i, j in HOUSE) else
                    sum(i + 1 for i in range(5) if v[f'n{i}'] == 'red'),
                    **{f'n{i}': ['red', 'green', 'blue'] for i in range(5)})

    def test_tour(self):
        fare = [[0, 7, 3, 8], [7, 0, 5, 2], [3, 5, 0, 4], [8, 2, 4, 0]]
        problem = Problem()
        stop = [problem.one_hot(f's{i}', [1, 2, 3]) for i in range(3)]
        for a, b in combinations(stop, 2):
            problem.add(a != b)
        problem.minimize(quicksum(fare[0][town] * (stop[0][town] + stop[2][town])
                                  for town in (1, 2, 3)))
        for a, b in zip(stop, stop[1:]):
            problem.minimize(quicksum(fare[i][j] * a[i] * b[j]
                                      for i, j in permutations((1, 2, 3), 2)))

        def cost(v):
            way = [0, v['s0'], v['s1'], v['s2'], 0]
            return sum(fare[i][j] for i, j in zip(way, way[1:])) if len(set(way)) == 4 else None
        self.agrees(problem, cost, s0=[1, 2, 3], s1=[1, 2, 3], s2=[1, 2, 3])

    def test_job_shop(self):
        steps = {'a0': (0, 2), 'a1': (1, 1), 'b0': (1, 1), 'b1': (0, 1)}    # machine and time

        def clash(p, q, s, t):
            (machine, long), (other, longer) = steps[p], steps[q]
            return p[0] == q[0] and t < s + long or machine == other and s - longer < t < s + long
        problem = Problem()
        start = {name: problem.one_hot(name, range(4)) for name in steps}
        end = problem.integer('end', 0, 5)
        for name, begin in start.items():
            problem.add(end >= begin.number + steps[name][1])
        for p, q in combinations(steps, 2):
            problem.add(quicksum(start[p][s] * start[q][t] for s in range(4) for t in range(4)
                                 if clash(p, q, s, t)) == 0, name=f'{p} and {q}')
        problem.minimize(end)
        self.agrees(problem, lambda v: None if any(
            clash(p, q, v[p], v[q]) for p, q in combinations(steps, 2)) or any(
            v[name] + long > v['end'] for name, (_, long) in steps.items()) else v['end'],
            a0=range(4), a1=range(4), b0=range(4), b1=range(4), end=range(6))

    def test_set_cover(self):
        sets = {'a': ({1, 2}, 3), 'b': ({2, 3}, 2), 'c': ({1, 3}, 2), 'd': ({1, 2, 3}, 5)}
        problem = Problem()
        x = {name: problem.binary(name) for name in sets}
        for part in 1, 2, 3:
            problem.add(quicksum(x[name] for name in sets if part in sets[name][0]) >= 1)
        problem.minimize(quicksum(sets[name][1] * x[name] for name in sets))
        self.agrees(problem, lambda v: sum(sets[s][1] for s in sets if v[s]) if set().union(
            *(sets[s][0] for s in sets if v[s])) == {1, 2, 3} else None,
            **dict.fromkeys(sets, (0, 1)))

    def bits(self, count):
        """A problem with bits x0, x1, .. and the domains of these."""
        problem = Problem()
        names = [f'x{i}' for i in range(count)]
        return problem, [problem.binary(name) for name in names], dict.fromkeys(names, (0, 1))

    def test_vertex_cover(self):
        problem, x, domains = self.bits(5)
        for i, j in HOUSE:
            problem.add(x[i] + x[j] >= 1)
        problem.minimize(quicksum(x))
        self.agrees(problem, lambda v: sum(v.values()) if all(v[f'x{i}'] or v[f'x{j}'] for i, j in
                                                              HOUSE) else None, **domains)

    def test_clique(self):
        problem, x, domains = self.bits(5)
        apart = [pair for pair in combinations(range(5), 2)
                 if pair not in HOUSE and pair[::-1] not in HOUSE]
        for i, j in apart:
            problem.add(x[i] * x[j] == 0)
        problem.maximize(quicksum(x))
        self.agrees(problem, lambda v: None if any(v[f'x{i}'] and v[f'x{j}'] for i, j in apart)
                    else -sum(v.values()), **domains)

    def test_knapsack(self):
        things = {'tent': (4, 7), 'stove': (3, 4), 'food': (5, 8), 'lamp': (2, 3)}
        problem = Problem()
        x = {name: problem.binary(name) for name in things}
        problem.add(quicksum(weight * x[name] for name, (weight, _) in things.items()) <= 9)
        problem.maximize(quicksum(worth * x[name] for name, (_, worth) in things.items()))
        self.agrees(problem, lambda v: -sum(things[n][1] for n in v if v[n]) if sum(
            things[n][0] for n in v if v[n]) <= 9 else None, **dict.fromkeys(things, (0, 1)))

    def test_quadratic_assignment(self):
        flow, way = [[0, 5, 2], [5, 0, 3], [2, 3, 0]], [[0, 8, 15], [8, 0, 13], [15, 13, 0]]
        problem = Problem()
        place = [problem.one_hot(f'f{i}', range(3)) for i in range(3)]
        for p, q in combinations(place, 2):
            problem.add(p != q)
        problem.minimize(quicksum(flow[i][j] * way[s][t] * place[i][s] * place[j][t]
                                  for i, j in combinations(range(3), 2)
                                  for s, t in permutations(range(3), 2)))
        self.agrees(problem, lambda v: sum(
            flow[i][j] * way[v[f'f{i}']][v[f'f{j}']] for i, j in combinations(range(3), 2))
            if len(set(v.values())) == 3 else None, f0=range(3), f1=range(3), f2=range(3))

    def test_bin_packing(self):
        sizes = [3, 2, 2]
        problem = Problem()
        used = [problem.binary(f'used{b}') for b in range(2)]
        bins = [problem.one_hot(f'item{i}', range(2)) for i in range(3)]
        for b in range(2):
            problem.add(quicksum(size * item[b] for size, item in zip(sizes, bins)) <= 5 * used[b])
        problem.minimize(quicksum(used))
        self.agrees(problem, lambda v: v['used0'] + v['used1'] if all(
            sum(size for i, size in enumerate(sizes) if v[f'item{i}'] == b) <= 5 * v[f'used{b}']
            for b in (0, 1)) else None, used0=(0, 1), used1=(0, 1), item0=(0, 1), item1=(0, 1),
            item2=(0, 1))

    def test_sudoku(self):
        clues = ['12..', '3.1.', '.1.3', '4.21']
        problem = Problem()
        cell = {(r, c): problem.one_hot(f'{r}{c}', '1234' if clues[r][c] == '.' else clues[r][c])
                for r in range(4) for c in range(4)}
        near = [(p, q) for p, q in combinations(cell, 2) if p[0] == q[0] or p[1] == q[1]
                or (p[0] // 2, p[1] // 2) == (q[0] // 2, q[1] // 2)]
        for p, q in near:
            problem.add(cell[p] != cell[q])

        def cost(v):
            return None if any(v[f'{p[0]}{p[1]}'] == v[f'{q[0]}{q[1]}'] for p, q in near) else 0
        self.agrees(problem, cost, **{f'{r}{c}': '1234' if clues[r][c] == '.' else clues[r][c]
                                      for r, c in cell})

    def test_nurse_rostering(self):
        wishes = {('ann', 0): 4, ('ann', 1): 3, ('ben', 0): 2, ('ben', 2): 1, ('cem', 2): 2}
        problem = Problem()
        shift = [problem.one_hot(f'day{d}', ['ann', 'ben', 'cem']) for d in range(3)]
        for name in 'ann', 'ben', 'cem':
            problem.add(quicksum(day[name] for day in shift) <= 2)
        for today, later in zip(shift, shift[1:]):
            problem.add(today != later, name='a night between')
        for (name, d), weight in wishes.items():
            problem.add(shift[d] != name, weight=weight, name=f'{name} is free')

        def cost(v):
            days = [v['day0'], v['day1'], v['day2']]
            return None if days[0] == days[1] or days[1] == days[2] else sum(
                weight for (name, d), weight in wishes.items() if days[d] == name)
        self.agrees(problem, cost, **{f'day{d}': ['ann', 'ben', 'cem'] for d in range(3)})

    def test_portfolio(self):
        gain, risk = [6, 4, 7, 3], {(0, 1): 2, (0, 2): 5, (1, 2): 1, (1, 3): -1, (2, 3): 2}
        problem, x, domains = self.bits(4)
        problem.add(quicksum(x) == 2, name='two of four')
        problem.maximize(quicksum(g * asset for g, asset in zip(gain, x)))
        problem.minimize(quicksum(r * x[i] * x[j] for (i, j), r in risk.items()))
        self.agrees(problem, lambda v: sum(r * v[f'x{i}'] * v[f'x{j}']
                                           for (i, j), r in risk.items())
                    - sum(g * v[f'x{i}'] for i, g in enumerate(gain))
                    if sum(v.values()) == 2 else None, **domains)

    def test_maximum_cut(self):
        problem, x, domains = self.bits(4)
        problem.maximize(quicksum(x[i] + x[j] - 2 * x[i] * x[j] for i, j in SQUARE))
        self.agrees(problem, lambda v: -sum(v[f'x{i}'] != v[f'x{j}'] for i, j in SQUARE), **domains)

    def test_maximum_satisfiability(self):
        clauses = [(1, 2, 3), (-1, 2, 3), (1, -2, 3), (1, 2, -3), (-1, -2, 3), (-1, 2, -3),
                   (-2, -3, 1), (-1, -2, -3)]
        problem, x, domains = self.bits(3)
        for at, clause in enumerate(clauses):
            problem.add(quicksum(x[l - 1] if l > 0 else 1 - x[-l - 1] for l in clause) >= 1,
                        weight=at + 1)
        self.agrees(problem, lambda v: sum(
            at + 1 for at, clause in enumerate(clauses)
            if not any(v[f'x{abs(l) - 1}'] == (l > 0) for l in clause)), **domains)

    def test_spin_glass(self):
        bonds = {(0, 1): 1, (1, 2): -2, (2, 3): 1, (3, 4): 1, (4, 0): 2, (0, 2): -1, (1, 3): 1}
        problem = Problem()
        s = [problem.spin(f's{i}') for i in range(5)]
        problem.minimize(quicksum(bond * s[i] * s[j] for (i, j), bond in bonds.items()) + s[0])
        self.agrees(problem, lambda v: v['s0'] + sum(bond * v[f's{i}'] * v[f's{j}']
                                                     for (i, j), bond in bonds.items()),
                    **{f's{i}': (-1, 1) for i in range(5)})

    def test_facility_location(self):
        opening, serve = [5, 4], [[1, 6], [2, 3], [5, 1]]
        problem = Problem()
        opened = [problem.binary(f'open{f}') for f in (0, 1)]
        of = [problem.one_hot(f'c{c}', (0, 1)) for c in range(3)]
        for customer in of:
            for f in 0, 1:
                problem.add(customer[f] <= opened[f])
        problem.minimize(quicksum(price * bit for price, bit in zip(opening, opened)))
        problem.minimize(quicksum(serve[c][f] * of[c][f] for c in range(3) for f in (0, 1)))
        self.agrees(problem, lambda v: sum(opening[f] * v[f'open{f}'] for f in (0, 1)) + sum(
            serve[c][v[f'c{c}']] for c in range(3)) if all(
            v[f'open{v[f"c{c}"]}'] for c in range(3)) else None,
            open0=(0, 1), open1=(0, 1), c0=(0, 1), c1=(0, 1), c2=(0, 1))

    def test_queens(self):
        problem = Problem()
        row = [problem.one_hot(f'r{r}', range(4)) for r in range(4)]
        meet = [(r, s, a, b) for r, s in combinations(range(4), 2)
                for a, b in product(range(4), repeat=2) if a == b or abs(a - b) == s - r]
        for r, s, a, b in meet:
            problem.add(row[r][a] + row[s][b] <= 1)
        problem.minimize(row[0].number)
        self.agrees(problem, lambda v: None if any(
            v[f'r{r}'] == a and v[f'r{s}'] == b for r, s, a, b in meet) else v['r0'],
            **{f'r{r}': range(4) for r in range(4)})

    def test_dominating_set(self):
        problem, x, domains = self.bits(5)
        near = [{i} | {a + b - i for a, b in HOUSE if i in (a, b)} for i in range(5)]
        for group in near:
            problem.add(quicksum(x[i] for i in group) >= 1)
        problem.minimize(quicksum(x))
        self.agrees(problem, lambda v: sum(v.values()) if all(
            any(v[f'x{i}'] for i in group) for group in near) else None, **domains)

    def test_auction(self):
        bids = [('ab', 5), ('bc', 6), ('c', 2), ('ad', 4), ('d', 3)]
        problem, x, domains = self.bits(5)
        for item in 'abcd':
            problem.add(quicksum(x[i] for i, (items, _) in enumerate(bids) if item in items) <= 1)
        problem.maximize(quicksum(price * x[i] for i, (_, price) in enumerate(bids)))
        self.agrees(problem, lambda v: -sum(bids[i][1] * v[f'x{i}'] for i in range(5)) if all(
            sum(v[f'x{i}'] for i in range(5) if item in bids[i][0]) <= 1 for item in 'abcd')
            else None, **domains)

    def test_integer_programming(self):
        problem = Problem()
        m, n = problem.integer('m', 0, 5), problem.integer('n', -2, 4)
        problem.add(3 * m + 2 * n <= 11)
        problem.add(m - n >= -1)
        problem.maximize(4 * m + 3 * n)
        self.agrees(problem, lambda v: -4 * v['m'] - 3 * v['n'] if 3 * v['m'] + 2 * v['n'] <= 11
                    and v['m'] - v['n'] >= -1 else None, m=range(6), n=range(-2, 5))

    def test_golomb_ruler(self):
        problem, x, domains = self.bits(8)
        equal = [(p, q) for p, q in combinations(combinations(range(8), 2), 2)
                 if p[1] - p[0] == q[1] - q[0]]
        problem.add(x[0] == 1)
        problem.add(quicksum(x) == 4)
        for p, q in equal:
            problem.minimize(40 * x[p[0]] * x[p[1]] * x[q[0]] * x[q[1]])
        problem.minimize(quicksum(i * x[i] for i in range(8)))
        self.agrees(problem, lambda v: sum(i * v[f'x{i}'] for i in range(8)) + sum(
            40 for p, q in equal if all(v[f'x{i}'] for i in p + q))
            if v['x0'] and sum(v.values()) == 4 else None, **domains)


if __name__ == '__main__':
    unittest.main()

"""Reads texts of all formats, or tells their first fault: a second program beside the readers.

It is written from docs/FORMATS.md, token by token, and takes no step of the program's readers.

    problem = read_source('wcnf', b'p wcnf 1 1\\n3 -1 0\\n')      # or it raises Fault

A literal is a pair of its variable, counted from 0, and whether it is a complement. So a tuple of
literals in ascending order has each variable before its complement.
"""
import re

NUMBER = re.compile(rb'([+-]?)([0-9]+)(?:\.0*)?')
INDEXED = re.compile(rb'(~?)x([0-9]+)')
NAMED = re.compile(rb'(~?)([A-Za-z_][A-Za-z0-9_]*)')
OPERATORS = (b'>=', b'<=', b'=')
BLANKS = re.compile(rb'[ \t\r]+')
PIECES = {
    'opb': re.compile(rb';|[<>=]+|[^;<>=:]*:|[^;<>=:]+'),
    'wbo': re.compile(rb'[;\[\]]|[<>=]+|[^;<>=:\[\]]*:|[^;<>=:\[\]]+'),
}
MOST_INDEX = {'opb': 2 ** 64 - 1, 'wbo': 2 ** 63 - 1}


class Fault(Exception):
    """What is wrong with a text: the kind and the line."""

    def __init__(self, kind, line):
        super().__init__(kind, line)
        self.kind, self.line = kind, line


class Constraint:
    """A sum that is to be at least a bound, or exactly it."""

    def __init__(self, terms, bound, exact):
        self.terms, self.bound, self.exact = terms, bound, exact


class Problem:
    """A constant, the terms of an objective, clauses with their weights, and constraints."""

    def __init__(self, variables, constant=0):
        self.variables, self.constant = variables, constant
        self.objective, self.clauses, self.constraints = [], [], []
        self.names = []             # of a polynomial
        self.source = None          # of a WBO file: what it was rewritten from
        self.most = None            # what costs more is infeasible

    def add_product(self, coefficient, literals):
        """A product of the objective, in normal form."""
        for coefficient, literals in normal([(coefficient, literals)], keep_empty=True):
            if literals:
                self.objective.append((coefficient, literals))
            else:
                self.constant += coefficient

    def add_clause(self, weight, literals):
        """A clause in normal form; a hard one has no weight."""
        literals = as_set(literals)
        if literals is None or weight == 0:
            return
        if weight is not None and not literals:
            self.constant += weight
        else:
            self.clauses.append((weight, literals))


class Wbo:
    """Constraints in the order of the text, each with its weight or none, and TOP or none."""

    def __init__(self, variables, top, rows):
        self.variables, self.top, self.rows = variables, top, rows


def as_set(literals):
    """Literals in order, each once; none where one stands beside its complement."""
    found = tuple(sorted(set(literals)))
    return None if len({variable for variable, _ in found}) < len(found) else found


def normal(terms, keep_empty=False):
    """The terms that count, each with its set of literals."""
    sets = [(coefficient, as_set(literals)) for coefficient, literals in terms]
    return [(coefficient, literals) for coefficient, literals in sets
            if coefficient != 0 and literals is not None and (literals or keep_empty)]


# ---- tokens

def lines_of(text, style):
    """The tokens of each line that has some, with its number."""
    comment = b'*' if style in PIECES else b'c'
    for number, line in enumerate(text.split(b'\n'), 1):
        words = [word for word in BLANKS.split(line) if word]
        if words and not words[0].startswith(comment):
            if style in PIECES:
                words = [piece for word in words for piece in PIECES[style].findall(word)]
            yield number, words


def whole(digits):
    """The number of decimal digits; of more than 21 figures those in front, which pass every bound."""
    return int(digits.lstrip(b'0')[:21] or b'0')


def value_of(token):
    """The number that a token is, or none."""
    found = NUMBER.fullmatch(token)
    if not found or whole(found.group(2)) >= 2 ** 64:
        return None
    return -whole(found.group(2)) if found.group(1) == b'-' else whole(found.group(2))


class Tokens:
    """The tokens of a text in order, and the line of the last one that was taken."""

    def __init__(self, text, style):
        self.rows = [(token, line) for line, words in lines_of(text, style) for token in words]
        self.at, self.line = 0, 1

    def next(self):
        """The token that comes, without taking it, and its line."""
        return self.rows[self.at] if self.at < len(self.rows) else (None, None)

    def take(self):
        """The token that comes."""
        if self.at == len(self.rows):
            raise Fault('end', self.rows[-1][1] if self.rows else 1)
        token, self.line = self.rows[self.at]
        self.at += 1
        return token

    def refuse(self, kind):
        """Says that the token that was taken last cannot stand there."""
        raise Fault(kind, self.line)

    def need(self, *words):
        """Takes one of these words."""
        token = self.take()
        if token not in words:
            self.refuse('word')
        return token

    def number(self, token=None, kind='number'):
        """The number that a token is; without one, that comes."""
        value = value_of(self.take() if token is None else token)
        if value is None:
            self.refuse(kind)
        return value

    def at_least(self, least, token=None, kind='number'):
        """Such a number that is not below another."""
        value = self.number(token, kind)
        if value < least:
            self.refuse('range')
        return value


# ---- weighted CNF

def literals_of(tokens, most=None):
    """The literals up to the 0 that ends a clause."""
    literals = []
    while True:
        number = tokens.number()
        if number == 0:
            return literals
        if most is not None and abs(number) > most:
            tokens.refuse('range')
        literals.append((abs(number) - 1, number < 0))


def read_wcnf(text):
    """A text of either layout."""
    tokens = Tokens(text, 'plain')
    if tokens.next()[0] in (None, b'p'):
        return read_older(tokens)
    rows = []
    while tokens.next()[0] is not None:
        token = tokens.take()
        weight = None if token == b'h' else tokens.at_least(0, token, kind='word')
        rows.append((weight, literals_of(tokens)))
    variables = max((variable + 1 for _, row in rows for variable, _ in row), default=0)
    return with_clauses(Problem(variables), rows)


def read_older(tokens):
    """A text with a header."""
    tokens.take()
    header = tokens.line

    def on_header():
        token = tokens.take()
        if tokens.line != header:
            tokens.refuse('word')
        return token

    if on_header() != b'wcnf':
        tokens.refuse('word')
    variables = tokens.at_least(0, on_header())
    count = tokens.at_least(0, on_header())
    top = tokens.at_least(1) if tokens.next()[1] == header else None
    if tokens.next()[1] == header:
        tokens.take()
        tokens.refuse('extra')
    rows = []
    while len(rows) < count:
        weight = tokens.at_least(0)
        hard = top is not None and weight >= top
        rows.append((None if hard else weight, literals_of(tokens, variables)))
    if tokens.next()[0] is not None:
        tokens.take()
        tokens.refuse('extra')
    return with_clauses(Problem(variables), rows)


def with_clauses(problem, rows):
    """A problem with clauses."""
    for weight, literals in rows:
        problem.add_clause(weight, literals)
    return problem


# ---- OPB and WBO

class Sums:
    """Takes sums and constraints, and keeps the largest index."""

    def __init__(self, tokens, style):
        self.tokens, self.most, self.variables = tokens, MOST_INDEX[style], 0

    def literal(self):
        """A literal, which has to stand there."""
        found = INDEXED.fullmatch(self.tokens.take())
        if not found:
            self.tokens.refuse('word')
        index = whole(found.group(2))
        if not 1 <= index <= self.most:
            self.tokens.refuse('range')
        self.variables = max(self.variables, index)
        return index - 1, found.group(1) == b'~'

    def sum(self, *ends):
        """The terms up to one of the tokens that end the sum, and this token."""
        terms = []
        while True:
            token = self.tokens.take()
            if token in ends:
                return terms, token
            if token in OPERATORS + (b';',) or token[:1] in b'x~' or token.endswith(b':'):
                self.tokens.refuse('word')
            coefficient = self.tokens.number(token)
            literals = [self.literal()]
            while (self.tokens.next()[0] or b' ')[:1] in b'x~':
                literals.append(self.literal())
            terms.append((coefficient, literals))

    def constraint(self):
        """A constraint, as one that is to be at least a bound or exactly it."""
        terms, operator = self.sum(*OPERATORS)
        bound = self.tokens.number()
        self.tokens.need(b';')
        if operator == b'<=':
            terms, bound = [(-coefficient, literals) for coefficient, literals in terms], -bound
        return Constraint(normal(terms), bound, operator == b'=')


def read_opb(text):
    """An objective or none, and constraints."""
    tokens = Tokens(text, 'opb')
    sums = Sums(tokens, 'opb')
    terms, constraints = [], []
    if tokens.next()[0] == b'min:':
        tokens.take()
        terms, _ = sums.sum(b';')
    while tokens.next()[0] is not None:
        constraints.append(sums.constraint())
    problem = Problem(sums.variables)
    for coefficient, literals in terms:
        problem.add_product(coefficient, literals)
    problem.constraints = constraints
    return problem


def read_wbo(text):
    """Hard and soft constraints, as the problem that they are rewritten to."""
    tokens = Tokens(text, 'wbo')
    sums = Sums(tokens, 'wbo')
    tokens.need(b'soft:')
    token, top = tokens.take(), None
    if token != b';':
        top = tokens.at_least(1, token)
        tokens.need(b';')
    rows = []
    while tokens.next()[0] is not None:
        weight = None
        if tokens.next()[0] == b'[':
            tokens.take()
            weight = tokens.at_least(0)
            tokens.need(b']')
        rows.append((weight, sums.constraint()))
    rows = [row for row in rows if row[0] != 0]
    return rewritten(Wbo(sums.variables, top, rows))


def rewritten(wbo, within=False):
    """The problem of a WBO file: a bit for each soft constraint.

    What TOP says is the last constraint, or where that is asked for the most that counts.
    """
    problem = Problem(wbo.variables)
    problem.source = wbo
    for weight, constraint in wbo.rows:
        if weight is None:
            problem.constraints.append(constraint)
            continue
        bit = ((problem.variables, False),)
        problem.variables += 1
        problem.objective.append((weight, bit))
        problem.constraints.append(loosened(constraint.terms, constraint.bound, bit))
        if constraint.exact:
            turned = [(-coefficient, literals) for coefficient, literals in constraint.terms]
            problem.constraints.append(loosened(turned, -constraint.bound, bit))
    if wbo.top is not None and sum(weight for weight, _ in problem.objective) >= wbo.top:
        terms = [(-weight, bit) for weight, bit in problem.objective]
        if within:
            problem.most = wbo.top - 1
        else:
            problem.constraints.append(Constraint(terms, 1 - wbo.top, False))
    return problem


def loosened(terms, bound, bit):
    """A sum that is at least a bound, or has the bit."""
    low = sum(min(coefficient, 0) for coefficient, _ in terms)
    more = [(bound - low, bit)] if bound > low else []
    return Constraint(terms + more, bound, False)


# ---- polynomials and entries

def read_poly(text):
    """A product a line, over names."""
    places, products = {}, []
    for number, words in lines_of(text, 'plain'):
        coefficient, literals = value_of(words[0]), []
        if coefficient is None:
            raise Fault('number', number)
        for word in words[1:]:
            found = NAMED.fullmatch(word)
            if not found:
                raise Fault('word', number)
            place = places.setdefault(found.group(2), len(places))
            literals.append((place, found.group(1) == b'~'))
        products.append((coefficient, literals))
    problem = Problem(len(places))
    problem.names = [name.decode() for name in places]
    for coefficient, literals in products:
        problem.add_product(coefficient, literals)
    return problem


def read_entries(text, kind):
    """Entries of nodes and of couplers."""
    tokens = Tokens(text, 'plain')
    tokens.need(b'p')
    tokens.need(kind)
    if kind == b'qubo':
        tokens.need(b'0', b'unconstrained')
    nodes, *left = [tokens.at_least(0) for _ in range(3)]

    def node():
        found = tokens.at_least(0)
        if found >= nodes:
            tokens.refuse('range')
        return found

    problem = Problem(nodes)
    while tokens.next()[0] is not None:
        i, j = node(), node()
        left[i != j] -= 1
        if left[i != j] < 0:
            tokens.refuse('extra')
        add_entry(problem, kind, i, j, tokens.number())
    if left != [0, 0]:
        tokens.take()
    return problem


def add_entry(problem, kind, i, j, weight):
    """The products of an entry: a spin is 2x - 1."""
    both = [(i, False), (j, False)]
    if kind == b'qubo':
        problem.add_product(weight, both)
    elif i == j:
        problem.add_product(-weight, [])
        problem.add_product(2 * weight, both)
    else:
        problem.add_product(weight, [])
        problem.add_product(4 * weight, both)
        problem.add_product(-2 * weight, both[:1])
        problem.add_product(-2 * weight, both[1:])


READERS = {
    'wcnf': read_wcnf,
    'opb': read_opb,
    'wbo': read_wbo,
    'poly': read_poly,
    'qubo': lambda text: read_entries(text, b'qubo'),
    'ising': lambda text: read_entries(text, b'ising'),
}


def read_source(layout, text):
    """The problem of a text of a format."""
    return READERS[layout](text)

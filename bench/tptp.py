"""A file of the prover's language as a problem of TPTP's, for provers that read that.

Only what the files of bench/ and examples/ have is read: assumptions and goals, the operators that stand at the start, names
that are variables where they begin with u to z. Several goals are denied together, so they are joined by `or`.
"""
import re

TOKEN = re.compile(r"\s+|%.*|([(),.']|[A-Za-z0-9_$]+|[-+*/\\^<>=~?@&|!#;`]+)")
# symbol: its precedence, what it lets stand on its left and on its right
INFIX = {"#": (810, 809, 810), "<->": (800, 799, 799), "->": (800, 799, 799), "<-": (800, 799, 799),
         "|": (790, 789, 790), "&": (780, 779, 780), "=": (700, 699, 699), "!=": (700, 699, 699),
         "<": (700, 699, 699), "<=": (700, 699, 699)}
INFIX.update({symbol: (500, 499, 499) for symbol in ("+", "*", "@", "/", "\\", "^", "v")})
CONNECTIVES = {"<->": "<=>", "->": "=>", "<-": "<=", "|": "|", "&": "&"}
PLAIN = re.compile("[a-z][A-Za-z0-9_]*$")


class Reading:
    """Tokens, and how many of them are read."""

    def __init__(self, text):
        self.tokens = [m.group(1) for m in TOKEN.finditer(text) if m.group(1)]
        self.at = 0

    def peek(self):
        return self.tokens[self.at]

    def take(self):
        self.at += 1
        return self.tokens[self.at - 1]

    def term(self, most=999):
        """A term of a precedence up to `most`, as a list: its symbol and its arguments."""
        left, height = self.first(most)
        while True:
            symbol = self.peek()
            if symbol == "'" and max(height, 300) <= most:
                self.take()
                left, height = ["'", left], 300
            elif symbol in INFIX and INFIX[symbol][0] <= most and height <= INFIX[symbol][1]:
                height, _, right = INFIX[self.take()]
                left = [symbol, left, self.term(right)]
            else:
                return left

    def first(self, most):
        """What a term begins with, and its precedence."""
        token = self.take()
        if token == "(":
            inside = self.term()
            self.take()
            return inside, 0
        if token == "-":
            return ["-", self.term(350)], 350
        if token in ("all", "exists"):
            return [token, self.take(), self.term(750)], 750
        if self.peek() == "(" and PLAIN.match(token):
            self.take()
            arguments = [self.term()]
            while self.take() == ",":
                arguments.append(self.term())
            return [token, *arguments], 0
        return [token], 0


def is_variable(name):
    return name[0] in "uvwxyz"


def name_of(symbol):
    if PLAIN.match(symbol):
        return symbol
    return "s" + "_".join(str(ord(c)) for c in symbol)


def term_text(term):
    symbol, *arguments = term
    if not arguments and is_variable(symbol):
        return symbol.upper()
    return name_of(symbol) + (f"({','.join(map(term_text, arguments))})" if arguments else "")


def formula_text(term):
    symbol, *parts = term
    if symbol == "#":
        return formula_text(parts[0])
    if symbol in ("all", "exists"):
        return f"({'!' if symbol == 'all' else '?'}[{parts[0].upper()}]: {formula_text(parts[1])})"
    if symbol in CONNECTIVES:
        return f"({formula_text(parts[0])} {CONNECTIVES[symbol]} {formula_text(parts[1])})"
    if symbol == "-":
        return f"~{formula_text(parts[0])}"
    if symbol in ("=", "!="):
        return f"({term_text(parts[0])} {symbol} {term_text(parts[1])})"
    return term_text(term)


def free(term, bound=()):
    """The names of the free variables, by first occurrence."""
    symbol, *parts = term
    if symbol in ("all", "exists"):
        return free(parts[1], (*bound, parts[0]))
    if not parts:
        return [symbol] if is_variable(symbol) and symbol not in bound else []
    return list(dict.fromkeys(name for part in parts for name in free(part, bound)))


def closed(term):
    names = ",".join(name.upper() for name in free(term))
    return f"(![{names}]: {formula_text(term)})" if names else formula_text(term)


def problem(text):
    """The problem of a file, in TPTP's language; without goals, that its assumptions contradict one another."""
    assumptions, goals = [], []
    for name, body in re.findall(r"formulas\((\w+)\)\.\n(.*?)end_of_list\.", text, re.S):
        reading = Reading(body)
        while reading.at < len(reading.tokens):
            formula = closed(reading.term())
            reading.take()
            if name == "goals":
                goals.append(formula)
            elif name != "hints":
                assumptions.append(formula)
    lines = [f"fof(a{number}, axiom, {formula}).\n" for number, formula in enumerate(assumptions)]
    lines.append(f"fof(goal, conjecture, {' | '.join(goals) or '$false'}).\n")
    return "".join(lines)

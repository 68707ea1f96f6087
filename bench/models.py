"""Searches for models: formulas, a size, and how many models there are."""

GROUP = "(x * y) * z = x * (y * z).\ne * x = x.\nx' * x = e.\n"
LATIN = "x * y = x * z -> y = z.\ny * x = z * x -> y = z.\n"
STEINER = "x * x = x.\nx * y = y * x.\nx * (x * y) = y.\n"
QUASIGROUP = "x * x = x.\n((y * x) * y) * y = x.\n" + LATIN
ORDER = "le(x,x).\nle(x,y) & le(y,x) -> x = y.\nle(x,y) & le(y,z) -> le(x,z).\n"
APART = "a * b != b * a.\n"
SEMIGROUP = "(x * y) * z = x * (y * z).\n"
SAME = "r(x,x).\nr(x,y) -> r(y,x).\nr(x,y) & r(y,z) -> r(x,z).\n"
LATTICE = """meet(x,y) = meet(y,x).
join(x,y) = join(y,x).
meet(meet(x,y),z) = meet(x,meet(y,z)).
join(join(x,y),z) = join(x,join(y,z)).
meet(x,join(x,y)) = x.
join(x,meet(x,y)) = x.
"""
FIELD = """plus(plus(x,y),z) = plus(x,plus(y,z)).
plus(x,y) = plus(y,x).
plus(x,0) = x.
plus(x,minus(x)) = 0.
times(times(x,y),z) = times(x,times(y,z)).
times(x,y) = times(y,x).
times(x,1) = x.
x = 0 | times(x,over(x)) = 1.
times(x,plus(y,z)) = plus(times(x,y),times(x,z)).
over(0) = 0.
"""


def different(names):
    """The names are those of different elements."""
    pairs = [(a, b) for i, a in enumerate(names) for b in names[i + 1:]]
    return "".join(f"{a} != {b}.\n" for a, b in pairs)


def queens(n):
    """Column x has its queen in row q(x)."""
    lines = ["q(x) = q(y) -> x = y.\n"]
    for i in range(n):
        for j in range(i + 1, n):
            for a in range(n):
                for b in (a + j - i, a - j + i):
                    if 0 <= b < n:
                        lines.append(f"q({i}) != {a} | q({j}) != {b}.\n")
    return "".join(lines)


def petersen():
    """The vertices of Petersen's graph have colours, those of an edge different ones."""
    edges = [(i, (i + 1) % 5) for i in range(5)]
    edges += [(i, i + 5) for i in range(5)]
    edges += [(5 + i, 5 + (i + 2) % 5) for i in range(5)]
    return "".join(f"n{a} != n{b}.\n" for a, b in edges)


def problem(name, size, text, models, every=False, least=None, options=""):
    """Formulas, a size, and how many models are wanted of it, `None` where that isn't known: all of them are asked for, or the
    first. The least-number heuristic is used where the first one is asked for, unless `least` says so or not. Further options
    may be given."""
    if every:
        options += "assign(max_models, -1).\n"
    if not (not every if least is None else least):
        options += "clear(lnh).\n"
    source = f"{options}formulas(assumptions).\n{text}end_of_list.\n"
    return name, size, source, models


def both(name, size, text, models, every=False):
    """A problem with the least-number heuristic and without. How many models the first finds isn't known where all are asked
    for."""
    few = None if every and models else models
    return [problem(f"{name}, lnh", size, text, few, every, True),
            problem(f"{name}, all values", size, text, models, every, False)]


PROBLEMS = [
    problem("an involution without a fixed point", 7, "f(f(x)) = x.\nf(x) != x.\n", 0),
    problem("involutions", 6, "f(f(x)) = x.\n", 76, True),
    problem("permutations", 5, "f(x) = f(y) -> x = y.\n", 120, True),
    problem("permutations that move each element", 6, "f(x) = f(y) -> x = y.\nf(x) != x.\n", 265, True),
    problem("6 pigeons in 6 holes", 6, different([f"p{i}" for i in range(6)]), 1),
    problem("7 pigeons in 6 holes", 6, different([f"p{i}" for i in range(7)]), 0),
    problem("equivalences", 6, SAME, 203, True),
    problem("orders", 4, ORDER, 219, True),
    problem("chains", 5, ORDER + "le(x,y) | le(y,x).\n", 120, True),
    problem("lattices", 4, LATTICE, 36, True),
    problem("semigroups", 3, SEMIGROUP, 113, True),
    *both("semigroups", 4, SEMIGROUP, 3492, True),
    *both("semigroups", 5, SEMIGROUP, 183732, True),
    problem("commutative semigroups", 4, SEMIGROUP + "x * y = y * x.\n", 1140, True),
    problem("latin squares", 4, LATIN, 576, True),
    problem("a group", 8, GROUP, 1),
    problem("groups", 5, GROUP, 30, True),
    *both("groups", 6, GROUP, 480, True),
    problem("groups, all values, selection_order 1", 6, GROUP, 480, True, False, "assign(selection_order, 1).\n"),
    problem("groups, lnh", 7, GROUP, None, True, True),
    problem("a group that isn't commutative", 5, GROUP + APART, 0),
    *both("a group that isn't commutative", 6, GROUP + APART, 1),
    *both("a group that isn't commutative", 7, GROUP + APART, 0),
    *both("a group that isn't commutative", 8, GROUP + APART, 1),
    problem("triples", 6, STEINER, 0),
    problem("triples", 7, STEINER, 30, True),
    problem("triples, lnh", 7, STEINER, None, True, True),
    problem("a field", 5, FIELD, 1),
    problem("a field", 6, FIELD, 0),
    *both("a quasigroup", 5, QUASIGROUP, 1),
    *both("a quasigroup", 6, QUASIGROUP, 0),
    *both("a quasigroup", 7, QUASIGROUP, 1),
    *both("a quasigroup", 8, QUASIGROUP, 1),
    problem("eight queens", 8, queens(8), 92, True),
    problem("colours of Petersen's graph", 3, petersen(), 120, True),
]

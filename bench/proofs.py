"""Searches for proofs: files of bench/proofs, some with options before them, and problems made for any size.

The first line of each says what is known, behind `% Theorem:` or `% No theorem:`.
"""
import pathlib

FOLDER = pathlib.Path(__file__).resolve().parent / "proofs"


def file(name, options=""):
    """A file's problem, with options before it."""
    source = (FOLDER / f"{name}.in").read_text()
    return f"{name}, {options}" if options else name, f"{options}\n{source}" if options else source


def chain(n):
    """A fact, and n implications from each to the next."""
    steps = "".join(f"p{i} -> p{i + 1}.\n" for i in range(n))
    source = f"% Theorem: the last of {n} implications follows.\nformulas(assumptions).\np0.\n{steps}end_of_list.\n"
    return f"chain of {n}", f"{source}formulas(goals).\np{n}.\nend_of_list.\n"


def pigeons(n):
    """One more pigeon than the n holes."""
    lines = [" | ".join(f"p{i}_{j}" for j in range(n)) for i in range(n + 1)]
    lines += [f"-p{i}_{j} | -p{k}_{j}" for j in range(n) for i in range(n + 1) for k in range(i)]
    source = "".join(f"{line}.\n" for line in lines)
    text = f"% Theorem: {n + 1} pigeons don't fit into {n} holes.\nformulas(assumptions).\n{source}end_of_list.\n"
    return f"{n + 1} pigeons", text


def is_theorem(source):
    return "% No theorem:" not in source


PROBLEMS = [
    file("exponent"),
    file("right_laws"),
    file("inverse"),
    file("group_commutes"),
    file("commutator"),
    file("commutator", "assign(order, kbo)."),
    file("own_inverse"),
    file("ring_signs"),
    file("boolean_ring"),
    file("absorption"),
    file("distributive_dual"),
    file("distributive_modular"),
    file("complement_once"),
    file("semilattice"),
    file("complement_twice"),
    file("boolean_absorption"),
    file("robbins_step"),
    file("ternary"),
    file("converse"),
    file("converse_below"),
    file("steiner"),
    file("associative_quasigroup"),
    file("identity"),
    file("fond"),
    file("detachment"),
    file("detachment", "assign(max_weight, 16)."),
    file("implication"),
    file("equivalence"),
    file("steamroller"),
    file("steamroller", "clear(auto). set(hyper_resolution)."),
    file("two_relations"),
    file("subset"),
    file("intersection"),
    file("bound"),
    file("order_total"),
    chain(200),
    chain(2000),
    pigeons(3),
    pigeons(4),
]

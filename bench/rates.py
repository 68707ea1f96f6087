"""Searches for how many clauses are concluded a second: what follows from axioms, by clauses of small weight, until none is left."""
import proofs


def consequences(name, source, weight):
    """A problem without its goals and its known answer, with a limit for weights."""
    axioms = source.partition("formulas(goals).")[0]
    lines = [line for line in axioms.splitlines() if not line.startswith("%")]
    text = "\n".join(["% No theorem: there is no goal.", f"assign(max_weight, {weight}).", *lines, ""])
    return f"{name}, weights to {weight}", text


def of_file(name, file, weight):
    return consequences(name, proofs.file(file)[1], weight)


PROBLEMS = [
    of_file("groups of exponent three", "commutator", 12),
    of_file("associative quasigroups", "associative_quasigroup", 12),
    of_file("semilattices", "semilattice", 12),
    of_file("distributive lattices", "distributive_dual", 12),
    of_file("bounded distributive lattices", "complement_once", 12),
    of_file("rings", "ring_signs", 12),
    of_file("rings of squares", "own_inverse", 12),
    of_file("Boolean rings", "boolean_ring", 12),
    of_file("Robbins algebras with a zero", "robbins_step", 12),
]

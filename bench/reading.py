"""Inputs of nearly 16 MiB, of one kind of trouble each: what reading them takes. Each is refused, but for the proof whose line is
read whole and then isn't accepted.
"""
MOST = 16_777_216
LIST = "formulas(assumptions).\n"
END = "end_of_list.\n"
PROBLEM = "formulas(assumptions).\np(a).\nend_of_list.\nformulas(goals).\np(a).\nend_of_list.\n"
BEFORE = f"""% Input {len(PROBLEM)}
{PROBLEM}
============================== PROOF =================================
% Proof 1.
1 p(a).  [assumption].
2 p(a).  [goal].
"""
BEHIND = ".  [clausify(1)].\n4 $F.  [resolve(3,a,3,a)].\n============================== end of proof ==========================\n"


def filled(unit, before=LIST, behind=""):
    """As many of a unit as there is room for."""
    return before + unit * ((MOST - len(before) - len(behind)) // len(unit)) + behind


def numbered(form, count, between):
    """Different texts of one form."""
    return between.join(form.format(number) for number in range(1_000_000, 1_000_000 + count))


def equation(name):
    """Two terms that share nothing."""
    count = (MOST - 1000) // 19
    return f"f({numbered(name + '{}', count, ',')}) = g({numbered(name + '2{}', count, ',')})"


# Each is made when its turn comes, since they are long.
PROBLEMS = [
    ("clausetester", "formulas on lines", lambda: filled("p(a).\n", behind=END), "misuse 18"),
    ("clausetester", "`(`", lambda: filled("("), "unreadable"),
    ("clausetester", "one symbol", lambda: filled("a"), "unreadable"),
    ("clausetester", "one number", lambda: filled("7"), "unreadable"),
    ("clausetester", "quoted symbols", lambda: filled('""'), "unreadable"),
    ("clausetester", "a quote that isn't closed", lambda: filled("a", LIST + '"'), "unreadable"),
    ("clausetester", "one quoted symbol", lambda: filled("a", LIST + '"', '".\n' + END), "misuse 18"),
    ("clausetester", "`%BEGIN`", lambda: filled("a", LIST + "%BEGIN"), "unreadable"),
    ("clausetester", "`---`", lambda: filled("-"), "unreadable"),
    ("clausetester", "`- - -`", lambda: filled("- "), "unreadable"),
    ("clausetester", "`p(p(`", lambda: filled("p("), "unreadable"),
    ("clausetester", "`p|p|`", lambda: filled("p|"), "unreadable"),
    ("clausetester", "`all x`", lambda: filled("all x "), "unreadable"),
    ("clausetester", "a clause of literals", lambda: filled("p(x)|", behind="q.\n" + END), "too large"),
    ("clausetester", "an equation of variables", lambda: LIST + equation("x") + ".\n" + END, "too large"),
    ("clausetester", "an equation of constants", lambda: LIST + equation("a") + ".\n" + END, "too large"),
    ("check", "brackets in a proof's words", lambda: filled("(", BEFORE + "3 p(a).  [clausify"), "unreadable"),
    ("check", "parentheses in a line", lambda: filled("(", BEFORE + "3 "), "unreadable"),
    ("check", "a million literals in a line", lambda: BEFORE + "3 " + " | ".join(["p(x)"] * 1_000_000) + BEHIND, "not accepted"),
    ("check", "a million literals of all symbols in a line", lambda: BEFORE + "3 " + numbered("p{}(x)", 1_000_000, " | ") + BEHIND, "not accepted"),
    ("check", "an equation of variables in a line", lambda: BEFORE + "3 " + equation("x") + BEHIND, "not accepted"),
    ("check", "an equation of constants in a line", lambda: BEFORE + "3 " + equation("a") + BEHIND, "not accepted"),
]

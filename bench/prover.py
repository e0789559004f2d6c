#!/usr/bin/env python3
"""How long the prover of conditions takes as conditions grow, beside Debian's z3 where it is installed.

usage: bench/prover.py PROGRAM

PROGRAM is the built program of the crate `condition_text`. Each kind of condition is one that verification asks, with
more and more hypotheses: permissions on aliases, indices in loops, levels of locks, measures, and applications. Each
row has the kind, how many hypotheses there are, the answer, the seconds of the program, how often it takes as long
as the row before, and what z3 answers of the same condition in how many seconds. The status is 1 where the two
disagree, or where an answer isn't the one that the kind is made for.
"""

import shutil
import subprocess
import sys
import time

FULL = 720720
SIZES = [4, 8, 16, 32]


# Terms and literals are tuples; the first member says which form it is.
def sym(n):
    return ("sym", n)


def lit(z):
    return ("lit", z)


def add(a, b):
    return ("add", a, b)


def ref(n):
    return ("ref", n)


def app(f, *terms):
    return ("app", f, terms)


def at_most(a, b):
    return ("<=", a, b)


def same(a, b):
    return ("=", a, b)


def apart(a, b):
    return ("/=", a, b)


def below(a, b):
    return at_most(add(a, lit(1)), b)


# ---- kinds: each gives hypotheses, a goal and the answer for which they are made
def aliases(n):
    """References that are equal one after the other, and units of the first that are those of the last."""
    hyps = [same(ref(i), ref(i + 1)) for i in range(n)]
    return hyps, same(ref(0), ref(n)), "proved"


def aliases_cut(n):
    """The same with one equality left out."""
    hyps = [same(ref(i), ref(i + 1)) for i in range(n) if i != n // 2]
    return hyps, same(ref(0), ref(n)), "fails"


def permissions(n):
    """Shares of one field, none below 0, that make the full permission: no two of them are more."""
    total = sym(0)
    for i in range(1, n):
        total = add(total, sym(i))
    hyps = [at_most(lit(0), sym(i)) for i in range(n)] + [at_most(total, lit(FULL))]
    return hyps, at_most(add(sym(0), sym(n - 1)), lit(FULL)), "proved"


def indices(n):
    """Indices that go up by at least 1: the last is at least n above the first."""
    hyps = [below(sym(i), sym(i + 1)) for i in range(n)]
    return hyps, at_most(add(sym(0), lit(n)), sym(n)), "proved"


def indices_short(n):
    """It need not be above that."""
    hyps = [below(sym(i), sym(i + 1)) for i in range(n)]
    return hyps, at_most(add(sym(0), lit(n + 1)), sym(n)), "fails"


def levels(n):
    """Levels in ascending order: the first and the last differ."""
    hyps = [below(sym(i), sym(i + 1)) for i in range(n)]
    return hyps, apart(sym(0), sym(n)), "proved"


def measures(n):
    """A measure of at least n that falls by 1 at each of n turns isn't below 0."""
    hyps = [at_most(lit(n), sym(0))]
    hyps += [same(add(sym(i + 1), lit(1)), sym(i)) for i in range(n)]
    return hyps, at_most(lit(0), sym(n)), "proved"


def applications(n):
    """Applications of one operator to equal numbers have equal results."""
    hyps = [same(sym(i), sym(i + 1)) for i in range(n)]
    first = app(2, sym(0), sym(100))
    last = app(2, sym(n), sym(101))
    return hyps, same(first, last), "proved"


KINDS = [aliases, aliases_cut, permissions, indices, indices_short, levels, measures, applications]


# ---- as the program reads them
def term_text(t):
    if t[0] == "sym":
        return f"x{t[1]}"
    if t[0] == "lit":
        return str(t[1])
    if t[0] == "add":
        return f"+ {term_text(t[1])} {term_text(t[2])}"
    if t[0] == "ref":
        return f"r{t[1]}"
    return f"f{t[1]} {len(t[2])} " + " ".join(term_text(u) for u in t[2])


def literal_text(l):
    return f"{l[0]} {term_text(l[1])} {term_text(l[2])}"


def condition_text(hyps, goal):
    lines = ["condition c"] + ["hyp " + literal_text(h) for h in hyps] + ["goal " + literal_text(goal)]
    return "\n".join(lines) + "\n"


# ---- as z3 reads them: numbers are in units, so that those that differ do by at least 1
def value(t):
    if t[0] == "lit":
        return f"{t[1]}.0" if t[1] >= 0 else f"(- {-t[1]}.0)"
    if t[0] == "add":
        return f"(+ {value(t[1])} {value(t[2])})"
    if t[0] == "app":
        return value(t[2][-1])
    return f"{'x' if t[0] == 'sym' else 'r'}{t[1]}"


def is_number(t):
    return t[0] != "ref"


def clear(a, b):
    return f"(or (= {value(a)} {value(b)}) (<= (+ {value(a)} 1.0) {value(b)}) (<= (+ {value(b)} 1.0) {value(a)}))"


def literal_smt(l):
    if l[0] == "<=":
        return f"(<= {value(l[1])} {value(l[2])})"
    equal = f"(= {value(l[1])} {value(l[2])})"
    return equal if l[0] == "=" else f"(not {equal})"


def parts(t):
    yield t
    for u in t[2] if t[0] == "app" else t[1:] if t[0] == "add" else ():
        yield from parts(u)


def smt(hyps, goal):
    literals = hyps + [goal]
    terms = [u for l in literals for t in l[1:] for u in parts(t)]
    lines = [f"(declare-const x{n} Real)" for n in sorted({t[1] for t in terms if t[0] == "sym"})]
    lines += [f"(declare-const r{n} Int)" for n in sorted({t[1] for t in terms if t[0] == "ref"})]
    lines += [f"(assert {clear(l[1], l[2])})" for l in literals if is_number(l[1])]
    applied = [t for t in terms if t[0] == "app"]
    for i, f in enumerate(applied):
        for g in applied[i + 1:]:
            if f[1] == g[1] and len(f[2]) == len(g[2]):
                pairs = list(zip(f[2][:-1], g[2][:-1]))
                lines += [f"(assert {clear(a, b)})" for a, b in pairs]
                equal = " ".join(f"(= {value(a)} {value(b)})" for a, b in pairs) or "true"
                lines.append(f"(assert (=> (and {equal}) (= {value(f)} {value(g)})))")
    lines += [f"(assert {literal_smt(h)})" for h in hyps]
    lines += [f"(assert (not {literal_smt(goal)}))", "(check-sat)"]
    return "\n".join(lines) + "\n"


def timed(command, text):
    start = time.perf_counter()
    done = subprocess.run(command, input=text, capture_output=True, text=True, check=False)
    return time.perf_counter() - start, done.stdout.split()


def main():
    if len(sys.argv) != 2:
        sys.exit(__doc__)
    z3 = shutil.which("z3")
    amiss = 0
    for kind in KINDS:
        before = None
        for size in SIZES:
            hyps, goal, wanted = kind(size)
            seconds, words = timed([sys.argv[1], "short"], condition_text(hyps, goal))
            answer = words[-1] if words else "nothing"
            row = f"{kind.__name__:15}{len(hyps):4}  {answer:8}{seconds:8.3f} s"
            row += f"  x{seconds / before:5.1f}" if before else " " * 8
            if z3:
                z3_seconds, told = timed([z3, "-in"], smt(hyps, goal))
                other = {"unsat": "proved", "sat": "fails"}.get(told[0] if told else "", "nothing")
                row += f"  z3: {other:8}{z3_seconds:8.3f} s"
                amiss += answer != other
            amiss += answer != wanted
            print(row, flush=True)
            before = seconds
    if not z3:
        print("z3 isn't installed: no second answer")
    sys.exit(1 if amiss else 0)


main()

"""Conditions in text, and their answers: those of checks/conditions.txt, which are worked out by hand, and 200 small
ones whose answers come from an enumeration of valuations. It writes the input and the output of the program
condition_text; with the word `check` it tells whether they are as it would write them, and with `compare` it compares the
program's long answers to the small ones, read from the standard input, with the valuations."""
import itertools
import os
import random
import sys

HERE = os.path.dirname(os.path.abspath(__file__))
CRATE = os.path.join(HERE, '..', 'crates', 'condition_text')
UNITS = (1, 2, 3, 4)
# how far numbers are tried, in units, by the number of symbols
REACH = (0, 8, 6, 4, 3)


# Terms are tuples: ('x', n), ('lit', k), ('+', a, b), ('*', k, a), ('f', operator, operands, result), ('r', n), ('@', n), ('nil',)
def text(t):
    kind = t[0]
    if kind in ('x', 'r', '@'):
        return f'{kind}{t[1]}'
    if kind == 'lit':
        return str(t[1])
    if kind == '+':
        return f'+ {text(t[1])} {text(t[2])}'
    if kind == '*':
        return f'* {t[1]} {text(t[2])}'
    if kind == 'f':
        terms = list(t[2]) + [t[3]]
        return ' '.join([f'f{t[1]}', str(len(terms))] + [text(u) for u in terms])
    return 'nil'


def literal_text(l):
    if l[0] == 'flag':
        return f'flag {l[1]}' if l[2] else f'not flag {l[1]}'
    return f'{l[0]} {text(l[1])} {text(l[2])}'


def parts(t):
    """The term and those within it."""
    yield t
    if t[0] == '+':
        yield from parts(t[1])
        yield from parts(t[2])
    elif t[0] == '*':
        yield from parts(t[2])
    elif t[0] == 'f':
        for u in t[2]:
            yield from parts(u)
        yield from parts(t[3])


def value(t, unit, xs, rs):
    """What a term is: a number in parts of the unit, or a reference."""
    kind = t[0]
    if kind == 'x':
        return xs[t[1]]
    if kind == 'lit':
        return t[1] * unit
    if kind == '+':
        return value(t[1], unit, xs, rs) + value(t[2], unit, xs, rs)
    if kind == '*':
        return t[1] * value(t[2], unit, xs, rs)
    if kind == 'f':
        return value(t[3], unit, xs, rs)
    if kind == 'r':
        return rs[t[1]]
    return t[1] if kind == '@' else 0


def is_number(t):
    return t[0] in ('x', 'lit', '+', '*', 'f')


def of_two_numbers(l):
    return l[0] != 'flag' and is_number(l[1])


def holds(l, unit, xs, rs, flags):
    if l[0] == 'flag':
        return flags[l[1]] == l[2]
    a, b = value(l[1], unit, xs, rs), value(l[2], unit, xs, rs)
    if l[0] == '<=':
        return a <= b
    if l[0] == '=':
        return a == b
    return abs(a - b) >= unit if is_number(l[1]) else a != b


class Condition:
    def __init__(self, hyps, goal):
        self.hyps, self.goal = hyps, goal
        literals = hyps + [goal]
        sides = [l[1:] for l in literals if l[0] != 'flag']
        terms = [u for pair in sides for t in pair for u in parts(t)]
        self.symbols = sorted({t[1] for t in terms if t[0] == 'x'})
        self.references = sorted({t[1] for t in terms if t[0] == 'r'})
        self.flags = sorted({l[1] for l in literals if l[0] == 'flag'})
        self.applications = list(dict.fromkeys(t for t in terms if t[0] == 'f'))
        self.compared = [(a, b) for a, b in sides if is_number(a)]
        for f, g in itertools.combinations(self.applications, 2):
            if f[1] == g[1]:
                self.compared += list(zip(f[2], g[2]))

    def fits(self, unit, xs, rs):
        """What is compared is equal or a unit apart, and equal operands have equal results."""
        for a, b in self.compared:
            d = abs(value(a, unit, xs, rs) - value(b, unit, xs, rs))
            if 0 < d < unit:
                return False
        for f, g in itertools.combinations(self.applications, 2):
            if f[1] == g[1] and [value(t, unit, xs, rs) for t in f[2]] == [value(t, unit, xs, rs) for t in g[2]]:
                if value(f[3], unit, xs, rs) != value(g[3], unit, xs, rs):
                    return False
        return True

    def is_counterexample(self, unit, xs, rs, flags):
        return (unit >= 1 and all(holds(l, unit, xs, rs, flags) for l in self.hyps)
                and not holds(self.goal, unit, xs, rs, flags) and self.fits(unit, xs, rs))

    def others(self):
        """References and flags by which the literals that aren't of numbers are as in a counterexample."""
        wanted = [(l, True) for l in self.hyps if not of_two_numbers(l)]
        wanted += [] if of_two_numbers(self.goal) else [(self.goal, False)]
        for refs in itertools.product(range(len(self.references) + 2), repeat=len(self.references)):
            for held in itertools.product((False, True), repeat=len(self.flags)):
                rs, flags = dict(zip(self.references, refs)), dict(zip(self.flags, held))
                if all(holds(l, 1, {}, rs, flags) == w for l, w in wanted):
                    return rs, flags
        return None

    def numbers(self, unit, xs, reach):
        """Numbers for the symbols that have none yet, within reach, by which those literals that are of numbers are so."""
        known = set(xs)
        for l, w in self.wanted:
            if self.symbols_of[l] <= known and holds(l, unit, xs, {}, {}) != w:
                return None
        if len(xs) == len(self.symbols):
            return dict(xs) if self.fits(unit, xs, {}) else None
        x = self.symbols[len(xs)]
        for number in sorted(range(-reach * unit, reach * unit + 1), key=abs):
            xs[x] = number
            found = self.numbers(unit, xs, reach)
            if found is not None:
                return found
            del xs[x]
        return None

    def counterexample(self):
        """The first counterexample of a small unit and small numbers, or None."""
        others = self.others()
        if others is None:
            return None
        self.wanted = [(l, True) for l in self.hyps if of_two_numbers(l)]
        self.wanted += [(self.goal, False)] if of_two_numbers(self.goal) else []
        self.symbols_of = {l: {u[1] for t in l[1:] for u in parts(t) if u[0] == 'x'} for l, _ in self.wanted}
        for unit in UNITS:
            xs = self.numbers(unit, {}, REACH[len(self.symbols)])
            if xs is not None:
                assert self.is_counterexample(unit, xs, *others)
                return unit, xs, *others
        return None

    def lines(self, name):
        return [f'condition {name}'] + [f'hyp {literal_text(l)}' for l in self.hyps] + [f'goal {literal_text(self.goal)}']


def linear(chance, symbols):
    """A small term over some symbols."""
    kind = chance.randrange(6)
    x = ('x', chance.choice(symbols))
    if kind <= 1:
        return x
    if kind == 2:
        return ('lit', chance.randrange(-2, 3))
    if kind == 3:
        return ('+', x, ('lit', chance.choice((-1, 1))))
    if kind == 4:
        return ('*', chance.choice((-1, 2)), x)
    return ('+', x, ('x', chance.choice(symbols)))


def of_numbers(chance, symbols):
    return (chance.choice(('<=', '<=', '=', '/=')), linear(chance, symbols), linear(chance, symbols))


def of_references(chance):
    sides = [('r', 0), ('r', 1), ('r', 2), ('@', 1), ('nil',)]
    return (chance.choice(('=', '/=')), chance.choice(sides), chance.choice(sides))


def of_applications(chance):
    applied = [('f', 1, (('x', 0),), ('x', 2)), ('f', 1, (('x', 1),), ('x', 3))]
    kind = chance.randrange(3)
    if kind == 0:
        return (chance.choice(('=', '/=', '<=')), applied[0], applied[1])
    return (chance.choice(('<=', '=')), applied[kind - 1], chance.choice([('lit', 0), ('x', 0), ('x', 1)]))


def small(chance, number):
    """One of the small conditions."""
    kind = number % 4
    hyps = [None] * chance.randrange(1, 4)
    if kind == 0:
        make = lambda: of_numbers(chance, (0, 1))
    elif kind == 1:
        make = lambda: of_numbers(chance, (0, 1, 2))
    elif kind == 2:
        make = lambda: chance.choice((of_references(chance), ('flag', chance.randrange(2), chance.random() < 0.5), of_references(chance)))
    else:
        make = lambda: chance.choice((of_applications(chance), of_applications(chance), of_numbers(chance, (0, 1))))
    return Condition([make() for _ in hyps], make())


def smalls():
    chance = random.Random(7)
    return [(f's{n}', small(chance, n)) for n in range(200)]


def by_hand():
    """The lines that are worked out by hand, and the answers that their comments give."""
    with open(os.path.join(HERE, 'conditions.txt'), encoding='utf-8') as f:
        lines = f.read().split('\n')[:-1]
    answers = []
    for n, line in enumerate(lines, 1):
        front, colon, _ = line.partition(':')
        words = front.split(' ')[1:]
        if line.startswith('# ') and colon and len(words) == 2:
            answers.append(f'line {n + 1}: cannot read' if words == ['cannot', 'read'] else ' '.join(words))
    return lines, answers


def table():
    """The input, the output and the words of the program."""
    lines, answers = by_hand()
    lines = lines + ['# Small conditions, answered by an enumeration of valuations']
    for name, c in smalls():
        lines += c.lines(name)
        answers.append(f'{name} {"fails" if c.counterexample() else "proved"}')
    return {'stdin': lines, 'stdout': answers, 'args': ['short']}


def write():
    for name, content in table().items():
        with open(os.path.join(CRATE, name), 'w', encoding='utf-8') as f:
            f.write(''.join(line + '\n' for line in content))


def check():
    """Tells whether the table is the one that would be written."""
    for name, content in table().items():
        with open(os.path.join(CRATE, name), encoding='utf-8') as f:
            same = f.read() == ''.join(line + '\n' for line in content)
        print(f'ok the {name} of condition_text' if same else f'FAILED the {name} of condition_text is another')


def compare():
    """Tells each small condition whose long answer is no counterexample, or proved where there is one."""
    said = dict(line.rstrip('\n').split(' ', 1) for line in sys.stdin)
    wrong = 0
    for name, c in smalls():
        words = said.get(name, '').split(' ')
        if words[0] == 'fails':
            given = dict(word.split('=') for word in words[3:])
            xs = {n: int(given.get(f'x{n}', 0)) for n in c.symbols}
            rs = {n: int(given.get(f'r{n}', 0)) for n in c.references}
            flags = {n: given.get(f'flag{n}') == 'true' for n in c.flags}
            right = c.is_counterexample(int(words[2]), xs, rs, flags)
        else:
            right = words[0] == 'proved' and c.counterexample() is None
        if not right:
            wrong += 1
            print(name, said.get(name), c.lines(name))
    print(f'{wrong} wrong')
    return 1 if wrong else 0


if __name__ == '__main__':
    if sys.argv[1:] == ['compare']:
        sys.exit(compare())
    elif sys.argv[1:] == ['check']:
        check()
    else:
        write()

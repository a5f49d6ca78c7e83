"""The books that `fit` is measured on. Each is told by its name, the same in every run."""
import random


def book(n, rules):
    lines = ["p cnf %d %d" % (n, len(rules))] + [" ".join(map(str, r + [0])) for r in rules]
    return "\n".join(lines) + "\n"


def pigeons(holes):
    """One pigeon more than holes: each is in some hole, and no two are in one."""
    part = lambda p, h: p * holes + h + 1
    rules = [[part(p, h) for h in range(holes)] for p in range(holes + 1)]
    rules += [[-part(p, h), -part(q, h)] for h in range(holes) for p in range(holes + 1) for q in range(p + 1, holes + 1)]
    return book((holes + 1) * holes, rules)


def three_marks(dice, n, count):
    return [[dice.choice([p, -p]) for p in dice.sample(range(1, n + 1), 3)] for _ in range(count)]


def three(n, ratio, seed):
    return book(n, three_marks(random.Random(seed), n, round(n * ratio)))


def all_rules(n):
    return book(n, [[p + 1 if bits >> p & 1 else -p - 1 for p in range(n)] for bits in range(2 ** n)])


def bays(width, count, more, seed):
    """Bays of which each has one part in, and then random rules over all parts."""
    rules = []
    for first in range(1, width * count, width):
        bay = range(first, first + width)
        rules += [list(bay)] + [[-p, -q] for p in bay for q in bay if p < q]
    return book(width * count, rules + three_marks(random.Random(seed), width * count, more))


def long_text(seed):
    """A text of just 60,000 bytes, the most there may be: 4,000 rules, and a comment that fills it."""
    dice = random.Random(seed)
    chosen = {p: dice.choice([p, -p]) for p in range(1, 121)}
    rules = []
    for _ in range(4000):
        marks = [dice.choice([p, -p]) for p in dice.sample(range(1, 121), 3)]
        marks[0] = chosen[abs(marks[0])]
        rules.append(marks)
    text = book(120, rules)
    return "c" + "x" * (60000 - len(text) - 2) + "\n" + text


CASES = {
    "pigeon holes 8": lambda: pigeons(8),
    "pigeon holes 9": lambda: pigeons(9),
    "three marks, 100 parts": lambda: three(100, 4.26, 9),
    "three marks, 120 parts": lambda: three(120, 4.26, 9),
    "all rules over 10 parts": lambda: all_rules(10),
    "bays and random rules": lambda: bays(6, 20, 300, 3),
    "a text of 60,000 bytes": lambda: long_text(4),
}


def sheet(text):
    n = int(text[text.index("p cnf"):].split()[2])
    return "".join("part\t%d\tP-%d\n" % (p, p) for p in range(1, n + 1))

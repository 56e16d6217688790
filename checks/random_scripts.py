#!/usr/bin/env python3
"""Runs `cht plain` on random scripts and compares what it writes with what dense matrices of whole numbers in Python give.

Every statement of the language and both forms come, with matrices of zeros, blocks of a single place, names used twice, copies and
deletes, and now and then values so great that a statement is refused by the rule on magnitudes. The scripts have no static fault.
Usage: checks/random_scripts.py [SCRIPTS [SEED]] (200 scripts from seed 1, where nothing else is said)
"""
import os
import random
import subprocess
import sys

TOP = os.path.dirname(os.path.dirname(os.path.abspath(__file__)))
LIMIT = 2**126
BANNER = "%%MatrixMarket matrix coordinate integer "


class Refused(Exception):
    """A statement whose result might be too great."""


def zeros(rows, columns):
    return [[0] * columns for _ in range(rows)]


def transposed(a):
    return [list(row) for row in zip(*a)]


def product(a, b):
    columns = transposed(b)
    return [[sum(x * y for x, y in zip(row, column)) for column in columns] for row in a]


def peak(a):
    return max(abs(x) for row in a for x in row)


def within(bound):
    if bound > LIMIT:
        raise Refused


def listed(form, a):
    """The places that a form lists, row by row, counted from 1, with their values other than 0."""
    return [
        (i + 1, j + 1, x)
        for i, row in enumerate(a)
        for j, x in enumerate(row)
        if x != 0 and (form == "general" or j <= i)
    ]


def text(form, a):
    entries = listed(form, a)
    lines = [BANNER + form, f"{len(a)} {len(a[0])} {len(entries)}"]
    return "".join(line + "\n" for line in lines + [f"{i} {j} {x}" for i, j, x in entries])


def done(verb, known, names):
    """What a verb gives: the matrix with its form that it binds, or nothing, and what it writes."""
    form, a = known[names[-1 if len(names) < 3 else 1]]
    if verb == "copy":
        return (form, a), ""
    if verb == "full":
        return ("general", a), ""
    if verb == "square":
        within(len(a) * peak(a) * peak(a))
        return ("symmetric", product(a, a)), ""
    if verb == "trace":
        within(len(a) * peak(a))
        return None, f"{sum(a[i][i] for i in range(len(a)))}\n"
    if verb == "count":
        return None, f"{len(listed(form, a))}\n"
    if verb == "print":
        return None, text(form, a)
    b = known[names[2]][1]
    if verb == "add":
        within(peak(a) + peak(b))
        return (form, [[x + y for x, y in zip(r, s)] for r, s in zip(a, b)]), ""
    within((len(a) if verb == "tmul" else len(a[0])) * peak(a) * peak(b))
    if verb == "mul":
        return ("general", product(a, b)), ""
    if verb == "tmul":
        return ("general", product(transposed(a), b)), ""
    return ("general", product(a, transposed(b))), ""


def fits(verb, x, y):
    """Whether a verb takes inputs of these forms and shapes."""
    (f, a), (g, b) = x, y
    if verb == "add":
        return f == g and len(a) == len(b) and len(a[0]) == len(b[0])
    if verb == "mul":
        return "general" in (f, g) and len(a[0]) == len(b)
    if verb == "tmul":
        return f == g == "general" and len(a) == len(b)
    if verb == "mult":
        return f == g == "general" and len(a[0]) == len(b[0])
    if verb in ("square", "full"):
        return f == "symmetric"
    return verb != "trace" or len(a) == len(a[0])


class Script:
    """A script that grows by one statement at a time, with what it means."""

    def __init__(self, rng):
        self.rng = rng
        self.grid = rng.choice([1, 2, 3, 4, 5, 7, 8, 9, 13, 16])
        self.leaf = rng.choice([1, 1, 2, 3, 4, 5, 8])
        self.sizes = [rng.randint(1, self.grid) for _ in range(2)] + [self.grid]
        self.great = rng.random() < 0.1
        self.lines = [f"grid {self.grid} leaf {self.leaf}"]
        self.known = {}
        self.bound = 0
        self.out = ""
        self.refused = None

    def name(self):
        self.bound += 1
        return f"m{self.bound}"

    def value(self):
        if self.great and self.rng.random() < 0.3:
            return self.rng.choice([-1, 1]) * self.rng.randint(2**55, 2**63 - 1)
        return self.rng.choice([0, 1, -1, 2, -3, self.rng.randint(-99, 99)])

    def market(self):
        form = self.rng.choice(["general", "symmetric"])
        rows = self.rng.choice(self.sizes)
        columns = rows if form == "symmetric" else self.rng.choice(self.sizes)
        places = [(i, j) for i in range(rows) for j in range(columns) if form == "general" or j <= i]
        share = self.rng.choice([0, 0.1, 0.3, 0.7, 1])
        places = [place for place in places if self.rng.random() < share]
        self.rng.shuffle(places)
        a = zeros(rows, columns)
        name = self.name()
        self.lines += [f"market {name}", BANNER + form, f"{rows} {columns} {len(places)}"]
        for i, j in places:
            a[i][j] = self.value()
            if form == "symmetric":
                a[j][i] = a[i][j]
            self.lines.append(f"{i + 1} {j + 1} {a[i][j]}")
        self.known[name] = (form, a)

    def act(self):
        verb = self.rng.choice("copy add add mul mul mul tmul mult square full trace count print delete".split())
        names = sorted(self.known)
        pairs = [(p, q) for p in names for q in names if fits(verb, self.known[p], self.known[q])]
        if not pairs:
            return
        first, second = self.rng.choice(pairs)
        inputs = [first, second] if verb in ("add", "mul", "tmul", "mult") else [first]
        binds = verb in ("copy", "add", "mul", "tmul", "mult", "square", "full")
        words = ([self.name()] if binds else []) + inputs
        self.lines.append(" ".join([verb] + words))
        if verb == "delete":
            del self.known[first]
            return
        try:
            given, wrote = done(verb, self.known, words)
        except Refused:
            self.refused = len(self.lines)
            return
        self.out += wrote
        if given:
            self.known[words[0]] = given

    def grow(self):
        for _ in range(self.rng.randint(1, 4)):
            self.market()
        for _ in range(self.rng.randint(1, 14)):
            if self.refused:
                return
            if self.rng.random() < 0.1:
                self.market()
            else:
                self.act()
        for name in sorted(self.known):
            if not self.refused:
                self.lines.append(f"print {name}")
                self.out += text(*self.known[name])


def main():
    count = int(sys.argv[1]) if len(sys.argv) > 1 else 200
    seed = int(sys.argv[2]) if len(sys.argv) > 2 else 1
    refusals = 0
    for number in range(count):
        script = Script(random.Random(f"{seed} {number}"))
        script.grow()
        ran = subprocess.run(
            [os.path.join(TOP, "bin", "cht"), "plain"],
            input="".join(line + "\n" for line in script.lines),
            stdout=subprocess.PIPE,
            stderr=subprocess.PIPE,
            text=True,
        )
        notes = f"cht: line {script.refused}: fault 19 Magnitude\n" if script.refused else ""
        refusals += bool(script.refused)
        if (ran.stdout, ran.stderr, ran.returncode) != (script.out, notes, 2 if script.refused else 0):
            sys.stdout.write("\n".join(script.lines) + "\n")
            sys.exit(f"script {number} of seed {seed} wrote other text, or ended in another way:\n{ran.stdout}{ran.stderr}")
    print(f"{count} scripts agree, {refusals} of them refused at a statement")


if __name__ == "__main__":
    main()

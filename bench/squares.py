#!/usr/bin/env python3
"""Times `square` of a dense symmetric matrix under `cht plain` against `mul` of its full form.

Makes three scripts of one symmetric matrix in a temporary folder: one prints the full form of its square, one the product of its full
form with itself, and one its full form alone. The first two have to write one text. Prints the best time of five runs in turn and the
peak memory, and the ratio of the first two, also with the time of the third taken off, which is that of reading, `full` and printing.
Usage: bench/squares.py
"""
import os
import random
import subprocess
import sys
import tempfile

from parts import PROGRAM, best_runs

BANNER = "%%MatrixMarket matrix coordinate integer symmetric\n"
SIDE, LEAF = 512, 32
STATEMENTS = {
    "square": "square b a\nfull c b\nprint c\n",
    "mul": "full b a\nmul c b b\nprint c\n",
    "neither": "full b a\nprint b\n",
}


def script(side, leaf, statements):
    """A dense symmetric matrix by the places on and below its diagonal, and what is done with it."""
    draw = random.Random(7)
    lines = [f"grid {side} leaf {leaf}\nmarket a\n{BANNER}{side} {side} {side * (side + 1) // 2}\n"]
    lines += [f"{row} {column} {draw.randint(1, 99)}\n" for row in range(1, side + 1) for column in range(1, row + 1)]
    return "".join(lines) + statements


def main():
    if not os.path.exists(PROGRAM):
        sys.exit("build the program first: bin/cht plain < examples/first.cht")
    with tempfile.TemporaryDirectory() as folder:
        sources = {name: os.path.join(folder, f"{name}.cht") for name in STATEMENTS}
        texts = {name: os.path.join(folder, name) for name in STATEMENTS}
        for name in STATEMENTS:
            # A process of its own makes the script: the peak of a child counts the memory that its parent had.
            subprocess.run([sys.executable, __file__, "make", name, sources[name]], check=True)
        runs = best_runs(*(([PROGRAM, "plain"], sources[name], texts[name]) for name in STATEMENTS))
        spent = {name: time for name, (time, _) in zip(STATEMENTS, runs)}
        for name, (time, peak) in zip(STATEMENTS, runs):
            print(f"{name}, dense {SIDE}, leaf {LEAF}: {time:.3f} s, {peak:.0f} MiB")
        if subprocess.run(["cmp", "-s", texts["square"], texts["mul"]]).returncode != 0:
            sys.exit("the square and the product are different texts")
    base = spent["neither"]
    print(
        f"square by mul: ratio {spent['square'] / spent['mul']:.2f};"
        f" {(spent['square'] - base) / (spent['mul'] - base):.2f} without reading, full and printing"
    )


if sys.argv[1:2] == ["make"]:
    with open(sys.argv[3], "w") as out:
        out.write(script(SIDE, LEAF, STATEMENTS[sys.argv[2]]))
else:
    main()

#!/usr/bin/env python3
"""Times products under `cht plain` against a plain C++ program with a quadtree of dense leaves.

Makes the inputs in a temporary folder, builds bench/products.cpp, runs both programs on each input, compares what they write,
and prints the best time of five runs in turn, the peak memory, the ratios, and what a task takes beside its kernel: the difference of the
times, by the number of tasks that the plans ask. Usage: bench/products.py
"""
import os
import random
import subprocess
import sys
import tempfile

from parts import compared, compiled

BANNER = "%%MatrixMarket matrix coordinate integer general\n"


def dense(side):
    return [(row, column) for row in range(1, side + 1) for column in range(1, side + 1)]


def band(side, diagonals):
    """The places on that many diagonals, an odd number, around the main one."""
    reach = diagonals // 2
    return [
        (row, column)
        for row in range(1, side + 1)
        for column in range(max(1, row - reach), min(side, row + reach) + 1)
    ]


def scattered(side, each):
    """The places of that many entries in each row."""
    draw = random.Random(7)
    return [(row, column) for row in range(1, side + 1) for column in sorted(draw.sample(range(1, side + 1), each))]


def script(path, verb, side, leaf, places):
    """The product of two matrices with these places, printed."""
    with open(path, "w") as out:
        out.write(f"grid {side} leaf {leaf}\n")
        for name in "ab":
            draw = random.Random(name)
            out.write(f"market {name}\n{BANNER}{side} {side} {len(places)}\n")
            for row, column in places:
                out.write(f"{row} {column} {draw.randint(1, 99)}\n")
        out.write(f"{verb} c a b\nprint c\n")


INPUTS = [
    ("dense 512, leaf 32", lambda path: script(path, "mul", 512, 32, dense(512))),
    ("a band of 4096 with 41 diagonals, leaf 32", lambda path: script(path, "mul", 4096, 32, band(4096, 41))),
    ("1024 with 16 scattered entries a row, leaf 32", lambda path: script(path, "mul", 1024, 32, scattered(1024, 16))),
    ("tmul, dense 512, leaf 32", lambda path: script(path, "tmul", 512, 32, dense(512))),
    ("mult, dense 512, leaf 32", lambda path: script(path, "mult", 512, 32, dense(512))),
]


def main():
    worst = 0
    with tempfile.TemporaryDirectory() as folder:
        plain = compiled(folder, "c++", "products.cpp")
        for number, (name, _) in enumerate(INPUTS):
            source = os.path.join(folder, "script")
            # A process of its own makes the input: the peak of a child counts the memory that its parent had.
            subprocess.run([sys.executable, __file__, "make", str(number), source], check=True)
            with open(source, "rb") as given:
                told = subprocess.run([plain, "tasks"], stdin=given, capture_output=True, check=True)
            tasks = int(told.stderr)
            ours, base = compared(folder, plain, source, name)
            ratio = ours[0] / base[0]
            worst = max(worst, ratio)
            print(
                f"{name}: cht {ours[0]:.3f} s, C++ {base[0]:.3f} s, ratio {ratio:.2f};"
                f" peak cht {ours[1]:.0f} MiB, C++ {base[1]:.0f} MiB;"
                f" {tasks} tasks, {1e6 * (ours[0] - base[0]) / tasks:.2f} microseconds each beside the kernels"
            )
    print(f"worst ratio of the times {worst:.2f}")


if sys.argv[1:2] == ["make"]:
    INPUTS[int(sys.argv[2])][1](sys.argv[3])
else:
    main()

#!/usr/bin/env python3
"""Times chains of sums and large blocks under `cht plain` against a plain C++ program with sorted entry lists.

Makes the inputs in a temporary folder, builds bench/sums.cpp, runs both programs on each input, compares what they write,
and prints the best time of five runs in turn, the peak memory, and the ratios. Usage: bench/sums.py
"""
import os
import random
import subprocess
import sys
import tempfile

from parts import compared, compiled

BANNER = "%%MatrixMarket matrix coordinate integer general\n"


def block(out, name, side, places):
    draw = random.Random(len(name))
    out.write(f"market {name}\n{BANNER}{side} {side} {len(places)}\n")
    for row, column in places:
        out.write(f"{row} {column} {draw.randint(1, 99)}\n")


def band(side, width):
    """The places of a band: `width` neighbouring columns in each row, near the diagonal."""
    places = []
    for row in range(1, side + 1):
        first = min(max(1, row - width // 2), side - width + 1)
        places += [(row, column) for column in range(first, first + width)]
    return places


def scattered(side, count):
    draw = random.Random(7)
    return [(place // side + 1, place % side + 1) for place in sorted(draw.sample(range(side * side), count))]


def chain(path, side, leaf, places, sums):
    """x1 = a + a, x2 = x1 + a and so on, and the last of them printed."""
    with open(path, "w") as out:
        out.write(f"grid {side} leaf {leaf}\n")
        block(out, "a", side, places)
        for k in range(1, sums + 1):
            out.write(f"add x{k} {'a' if k == 1 else f'x{k - 1}'} a\n")
        out.write(f"print {'a' if sums == 0 else f'x{sums}'}\n")


INPUTS = [
    ("200 sums, a band of 5,000 entries, leaf 16", lambda path: chain(path, 250, 16, band(250, 20), 200)),
    ("200 sums, a band of 20,000 entries, leaf 16", lambda path: chain(path, 1000, 16, band(1000, 20), 200)),
    ("200 sums, a band of 80,000 entries, leaf 16", lambda path: chain(path, 4000, 16, band(4000, 20), 200)),
    ("a block of 100,000 scattered entries, leaf 32", lambda path: chain(path, 1300, 32, scattered(1300, 100_000), 0)),
    ("a block of 1,000,000 scattered entries, leaf 32", lambda path: chain(path, 4096, 32, scattered(4096, 1_000_000), 0)),
    ("a band of 1,000,000 entries, leaf 32", lambda path: chain(path, 4000, 32, band(4000, 250), 0)),
]


def main():
    with tempfile.TemporaryDirectory() as folder:
        plain = compiled(folder, "c++", "sums.cpp")
        for number, (name, _) in enumerate(INPUTS):
            source = os.path.join(folder, "script")
            # A process of its own makes the input: the peak of a child counts the memory that its parent had.
            subprocess.run([sys.executable, __file__, "make", str(number), source], check=True)
            ours, base = compared(folder, plain, source, name)
            print(
                f"{name}: cht {ours[0]:.3f} s, C++ {base[0]:.3f} s, ratio {ours[0] / base[0]:.2f};"
                f" peak cht {ours[1]:.0f} MiB, C++ {base[1]:.0f} MiB"
            )


if __name__ == "__main__":
    if sys.argv[1:2] == ["make"]:
        INPUTS[int(sys.argv[2])][1](sys.argv[3])
    else:
        main()

#!/usr/bin/env python3
"""Times `cht plain` on one large matrix against a plain C program that reads and prints the same.

Makes the inputs in a temporary folder, builds bench/read_print.c, runs both programs on each input, compares what
they write, and prints the best time of five runs in turn, the peak memory, and the ratios. Usage: bench/read_print.py
"""
import os
import random
import subprocess
import sys
import tempfile

from parts import compared, compiled

BANNER = "%%MatrixMarket matrix coordinate integer general\n"


def script(path, side, count, ordered, wide):
    """A script with `count` entries in a matrix of that side, its places drawn from a fixed seed."""
    draw = random.Random(7)
    places = draw.sample(range(side * side), count)
    if ordered:
        places.sort()
    with open(path, "w") as out:
        out.write(f"grid {side} leaf 32\nmarket a\n{BANNER}{side} {side} {count}\n")
        for place in places:
            value = draw.randint(-(10**17), 10**17) if wide else draw.randint(-99, 99)
            out.write(f"{place // side + 1} {place % side + 1} {value}\n")
        out.write("print a\n")


def main():
    with tempfile.TemporaryDirectory() as folder:
        plain = compiled(folder, "cc", "read_print.c")
        inputs = [
            ("100,000 entries in order", 1024, 100_000, True, False),
            ("1,000,000 entries in order", 4096, 1_000_000, True, False),
            ("1,000,000 entries in any order", 4096, 1_000_000, False, False),
            ("2,350,000 entries of 18 digits in order", 4096, 2_350_000, True, True),
        ]
        for name, side, count, ordered, wide in inputs:
            source = os.path.join(folder, "script")
            # A process of its own makes the input: the peak of a child counts the memory that its parent had.
            words = [str(side), str(count), str(int(ordered)), str(int(wide))]
            subprocess.run([sys.executable, __file__, "make", source] + words, check=True)
            size = os.path.getsize(source) / 2**20
            ours, base = compared(folder, plain, source, name)
            print(
                f"{name} ({size:.1f} MiB): cht {ours[0]:.3f} s, C {base[0]:.3f} s, ratio {ours[0] / base[0]:.2f};"
                f" peak cht {ours[1]:.0f} MiB ({ours[1] / size:.1f} times the input), C {base[1]:.0f} MiB"
            )


if sys.argv[1:2] == ["make"]:
    script(sys.argv[2], int(sys.argv[3]), int(sys.argv[4]), sys.argv[5] == "1", sys.argv[6] == "1")
else:
    main()

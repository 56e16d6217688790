#!/usr/bin/env python3
"""Times the generated script of number 7, size 4096 and fill 64 against a C program that writes the same text.

Copies the crates to a temporary folder, adds there a small program made of the file in bench/load_bench, has it proved and
built, builds bench/load.c with `cc -O3`, runs both five times in turn into a file, compares the texts, and prints the best times and
the ratio, which is the last line.

Usage: bench/load.py
"""
import os
import subprocess
import sys
import tempfile

from parts import best_runs, built, compiled

PARTS = [("main.rt.txt", "src/main.rt")]


def main():
    with tempfile.TemporaryDirectory() as folder:
        base = compiled(folder, "cc", "load.c")
        ours = built(folder, "load_bench", ["cht_ids", "cht_load"], PARTS)
        texts = [os.path.join(folder, "ours.txt"), os.path.join(folder, "base.txt")]
        runs = best_runs(*(([program], os.devnull, text) for program, text in zip([ours, base], texts)))
        if subprocess.run(["cmp", "-s"] + texts).returncode != 0:
            sys.exit("the two programs write different texts")
        print(f"{os.path.getsize(texts[0])} bytes")
        print(f"load 7 4096 64: {runs[0][0]:.4f} s, C {runs[1][0]:.4f} s, ratio {runs[0][0] / runs[1][0]:.2f}")


main()

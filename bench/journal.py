#!/usr/bin/env python3
"""Times a journal of 1,000,000 events, read and written again, against a plain C++ program that does the same.

Copies the crates to a temporary folder, adds there a small program made of the file in bench/journal_bench, has it proved and
built, builds bench/journal.cpp with `c++ -O3`, runs both five times in turn on the same text, compares both texts with it, and prints the
best times and the ratio, which is the last line.

Usage: bench/journal.py
"""
import os
import subprocess
import sys
import tempfile

from parts import best_runs, built, compiled

PARTS = [("main.rt.txt", "src/main.rt")]
CRATES = ["cht_ids", "cht_io", "task_types", "cht_history", "journal_text"]


def events(count):
    """Lines of so many events: registers, copies, asks, starts, finishes with chunks and tasks, collects and deletes."""
    lines, number = [], 1
    for k in range(count):
        caller, worker, n = k % 4, k % 8, number
        number += 3
        lines += [
            [f"register {caller} 0:{n}"],
            [f"register {caller} 0:{n} 0:{n + 1} - 3:{n + 2}"],
            [f"copy {caller} 0:{n} 0:{n + 1}"],
            [f"ask {caller} {n} total {k % 17} 0:{n} 0:{n + 1}"],
            [f"start {worker} {n}"],
            [f"finish {worker} {n} 1 0 k0", "chunk"],
            [f"finish {worker} {n} 2 3 t2", "chunk i0 c0.1", "chunk k0 -", "task total 2 c0.0", "task total 2 c0.1", "task plus 3 t0 t1"],
            [f"collect {caller} {n} {worker}:{n + 2}"],
            [f"delete {caller} 0:{n}"],
            [f"delete {caller} {worker}:{n + 2}"],
        ][k % 10]
    return lines


def main():
    count = 1_000_000
    with tempfile.TemporaryDirectory() as folder:
        base = compiled(folder, "c++", "journal.cpp")
        source = os.path.join(folder, "journal.txt")
        with open(source, "w") as text:
            text.write("\n".join(["cht journal 1"] + events(count) + [f"end {count}"]) + "\n")
        ours = built(folder, "journal_bench", CRATES, PARTS)
        texts = [os.path.join(folder, "ours.txt"), os.path.join(folder, "base.txt")]
        runs = best_runs(*(([program], source, text) for program, text in zip([ours, base], texts)))
        for text in texts:
            if subprocess.run(["cmp", "-s", source, text]).returncode != 0:
                sys.exit(f"{text} is not the text that was read")
        print(f"{os.path.getsize(source)} bytes, peaks {runs[0][1]:.0f} and {runs[1][1]:.0f} MiB")
        print(f"{count} events: {runs[0][0]:.3f} s, C++ {runs[1][0]:.3f} s, ratio {runs[0][0] / runs[1][0]:.2f}")


main()

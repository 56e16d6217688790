#!/usr/bin/env python3
"""Times a million exposes, takes and steals against a plain deque after Chase and Lev (2005) in C++, with one thread at work.

Copies the crates to a temporary folder, adds there a small program made of the files in bench/deque_bench, has it proved and
built, builds bench/deque.cpp, runs both five times in turn, compares the sums of what both took and stole, and prints the least
times of a call with their ratios. The last line has the three ratios.

Usage: bench/deque.py
"""
import tempfile

from parts import built, compiled, in_turn

CRATES = ["cht_ids", "steal_deque"]
PARTS = [
    ("main.rt.txt", "src/main.rt"),
    ("Invariants.antt.txt", "proofs/steal/Invariants.antt"),
]


def main():
    with tempfile.TemporaryDirectory() as folder:
        ours = built(folder, "deque_bench", CRATES, PARTS)
        base = compiled(folder, "c++", "deque.cpp", "-std=c++17", "-pthread")
        ratios = []
        for (count, _), (mine, plain) in in_turn([ours, base], 2).items():
            for kind, spent, other in zip(("expose", "take", "steal"), mine, plain):
                each = [time * 1000 / int(count) for time in (spent, other)]
                ratios.append(f"{kind} {each[0] / each[1]:.2f}")
                print(f"{kind}: {each[0]:.0f} ns, C++ {each[1]:.0f} ns, ratio {each[0] / each[1]:.2f}")
        print("ratios: " + ", ".join(ratios))


main()

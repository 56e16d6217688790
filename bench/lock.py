#!/usr/bin/env python3
"""Times turns of a seat lock against std::mutex: of one thread alone, and of two and four threads at once.

Copies the crates to a temporary folder, adds there a small program made of the files in bench/lock_bench, has it proved and
built, builds bench/lock.cpp, runs both five times in turn, compares how many turns both count, and prints the least times of a
turn with their ratios. The last line is the ratio with one thread.

Usage: bench/lock.py
"""
import tempfile

from parts import built, compiled, in_turn

CRATES = ["cht_ids", "seat_lock"]
PARTS = [
    ("main.rt.txt", "src/main.rt"),
    ("Ready.antt.txt", "specs/Ready.antt"),
    ("Seated.antt.txt", "proofs/Seated.antt"),
    ("Invariants.antt.txt", "proofs/turns/Invariants.antt"),
    ("Answers.antt.txt", "proofs/opened/Answers.antt"),
]


def main():
    with tempfile.TemporaryDirectory() as folder:
        ours = built(folder, "lock_bench", CRATES, PARTS)
        base = compiled(folder, "c++", "lock.cpp", "-std=c++17", "-pthread")
        rows = in_turn([ours, base], 2)
        for (threads, turns), (mine, plain) in rows.items():
            each = [spent * 1000 / int(turns) for (spent,) in (mine, plain)]
            print(f"{threads} threads, {turns} turns: {each[0]:.0f} ns a turn, std::mutex {each[1]:.0f} ns, ratio {each[0] / each[1]:.2f}")
        (mine,), (plain,) = next(iter(rows.values()))
        print(f"ratio with one thread: {mine / plain:.2f}")


main()

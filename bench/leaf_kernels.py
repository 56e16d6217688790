#!/usr/bin/env python3
"""Times the kernels of leaf blocks against the same loops in C with __int128.

Copies the crates to a temporary folder, adds there a small program made of the files in bench/leaf_bench (a repository of
Rattle has sources in its crates alone, so they have other endings here), has it proved and built, builds
bench/leaf_kernels.c with `cc -O3`, runs the two in turn, and prints for each kernel the least time of a call in
nanoseconds and the ratio. Blocks have side 16, 32 and 64, dense or with one number in twenty. Of the symmetric kernels it
prints too what a call takes beside our general product of two blocks of that side.

Usage: bench/leaf_kernels.py [ROUNDS]
"""
import subprocess
import sys
import tempfile

from parts import built, compiled

PARTS = [
    ("main.rt.txt", "src/main.rt"),
    ("Fit.antt.txt", "specs/Fit.antt"),
    ("Answers.antt.txt", "proofs/fit/Answers.antt"),
    ("SymmetricAnswers.antt.txt", "proofs/fit_symmetric/Answers.antt"),
]

SYMMETRIC = ["sym_square", "rank", "trank", "sym_mul", "mul_sym"]


def times(command):
    """By (side, fill, kernel) the nanoseconds of one call."""
    found = {}
    for line in subprocess.run(command, stdout=subprocess.PIPE, check=True, text=True).stdout.splitlines():
        words = line.split()
        if len(words) > 2 and words[1] in ("dense", "sparse"):
            for kernel, spent in zip(words[2::2], words[3::2]):
                found[words[0], words[1], kernel] = int(spent)
    return found


def main():
    rounds = int(sys.argv[1]) if len(sys.argv) > 1 else 5
    with tempfile.TemporaryDirectory() as folder:
        base = compiled(folder, "cc", "leaf_kernels.c")
        ours = built(folder, "leaf_bench", ["cht_ids", "dense_def", "leaf_blocks", "quad_symm"], PARTS)
        best = [{}, {}]
        for _ in range(rounds):
            for least, command in zip(best, [[ours], [base]]):
                for key, spent in times(command).items():
                    least[key] = min(spent, least.get(key, spent))
        for key, spent in best[0].items():
            beside = f", of our mul {spent / best[0][key[0], key[1], 'mul']:.2f}" if key[2] in SYMMETRIC else ""
            print(f"side {key[0]} {key[1]} {key[2]}: {spent} ns, C {best[1][key]} ns, ratio {spent / best[1][key]:.2f}{beside}")


main()

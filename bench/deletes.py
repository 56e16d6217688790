#!/usr/bin/env python3
"""What a chain of sums under `cht plain` takes of memory where each result but the last is deleted, and where none is.

Makes the scripts in a temporary folder, in a process of their own, and prints the time, the greatest memory, and how much memory each further
sum takes. What grows where results are deleted is the journal alone. Usage: bench/deletes.py
"""
import os
import subprocess
import sys
import tempfile

from parts import PROGRAM, best_runs
from sums import BANNER, band

SIDE, LEAF, WIDTH = 250, 16, 20
SUMS = (250, 500, 1000, 2000)


def chain(path, sums, deleted):
    with open(path, "w") as out:
        places = band(SIDE, WIDTH)
        out.write(f"grid {SIDE} leaf {LEAF}\nmarket x0\n{BANNER}{SIDE} {SIDE} {len(places)}\n")
        out.writelines(f"{row} {column} 1\n" for row, column in places)
        for k in range(1, sums + 1):
            out.write(f"add x{k} x{k - 1} x0\n")
            if deleted and k > 1:
                out.write(f"delete x{k - 1}\n")
        out.write(f"trace x{sums}\n")


def main():
    if not os.path.exists(PROGRAM):
        sys.exit("build the program first: bin/cht plain < examples/first.cht")
    with tempfile.TemporaryDirectory() as folder:
        source, target = os.path.join(folder, "script"), os.path.join(folder, "taken")
        for deleted in (True, False):
            known = None
            for sums in SUMS:
                subprocess.run([sys.executable, __file__, "make", source, str(sums), str(int(deleted))], check=True)
                [(spent, peak)] = best_runs(([PROGRAM, "plain"], source, target))
                with open(target) as taken:
                    if taken.read() != f"{SIDE * (sums + 1)}\n":
                        sys.exit("the program writes another trace")
                each = "" if known is None else f", {1024 * (peak - known[1]) / (sums - known[0]):.1f} KiB for each further sum"
                print(f"{sums} sums, {'each but the last deleted' if deleted else 'all kept'}: {spent:.3f} s, {peak:.0f} MiB{each}", flush=True)
                known = (sums, peak)


if sys.argv[1:2] == ["make"]:
    chain(sys.argv[2], int(sys.argv[3]), sys.argv[4] == "1")
else:
    main()

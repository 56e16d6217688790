#!/usr/bin/env python3
"""Times the registering and the deleting of bodies in a row, each of which has the one before as its child.

Copies the crates to a temporary folder, adds there a small program made of the files in bench/refs_bench (a repository of
Rattle has sources in its crates alone, so they have other endings here), has it proved and built, and runs it with a
stack of 256 KiB, so that a deletion that went down the row by calls would not end well. For each number of bodies, with one
child or with the body before as each of four children, it prints the microseconds that the registering took in all and
for each body, and those of the one deletion after which nothing is left.

Usage: bench/refs_chain.py
"""
import resource
import subprocess
import tempfile

from parts import built

CRATES = ["cht_ids", "chunk_store", "name_states", "task_types", "chunk_refs"]
PARTS = [
    ("main.rt.txt", "src/main.rt"),
    ("Draws.antt.txt", "proofs/Draws.antt"),
    ("Invariants.antt.txt", "proofs/row/Invariants.antt"),
]
STACK = 256 * 1024
CHILDREN = {"one": "1 child", "four": "4 children"}


def small_stack():
    resource.setrlimit(resource.RLIMIT_STACK, (STACK, STACK))


def main():
    with tempfile.TemporaryDirectory() as folder:
        program = built(folder, "refs_bench", CRATES, PARTS)
        run = subprocess.run([program], stdout=subprocess.PIPE, check=True, text=True, preexec_fn=small_stack)
        for line in run.stdout.splitlines():
            kind, count, bodies, ids, registered, deleted, left = line.split()
            each = [float(spent) / int(count) for spent in (registered, deleted)]
            print(
                f"{bodies} bodies with {CHILDREN[kind]} each, {ids} identifiers: registered in {registered} us ({each[0]:.2f} each),"
                f" deleted in {deleted} us ({each[1]:.2f} each), {left} left"
            )


main()

#!/usr/bin/env python3
"""Times the look-ups and puts of a cache at four capacities, a million calls each.

Copies the crates to a temporary folder, adds there a small program made of the file in bench/cache_bench, has it proved and
built, and prints what it prints: nanoseconds of one call.

Usage: bench/cache.py
"""
import subprocess
import tempfile

from parts import built

PARTS = [("main.rt.txt", "src/main.rt")]


def main():
    with tempfile.TemporaryDirectory() as folder:
        subprocess.run([built(folder, "cache_bench", ["cht_ids", "task_types", "chunk_cache"], PARTS)], check=True)


main()

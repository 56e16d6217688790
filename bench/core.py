#!/usr/bin/env python3
"""Times the events of a core: the total of a tree of numbers, whose tasks a plain loop runs, the newest that is ready first.

Copies the crates to a temporary folder, adds there a small program made of the files in bench/core_bench (a repository of
Rattle has sources in its crates alone, so they have other endings here), has it proved and built, and runs it five times for each
height of the tree. A total of a sum asks for two totals and a sum, so that a tree of height h makes 3 * 2^h - 2 tasks, with a
start and a finish each; few of them live at a time. The program reads the clock around each execution, and the time in executions
is taken off that of the loop. For each height it prints the least microseconds of an event and how they grew from the first,
and the greatest memory; at the end, by how much the memory grew with each event, which is what the journal takes.

Usage: bench/core.py
"""
import os
import subprocess
import sys
import tempfile

from parts import built

CRATES = [
    "cht_ids", "chunk_store", "task_states", "task_types", "cht_history", "name_states", "task_links", "chunk_refs", "name_machine",
    "task_graph", "core_steps", "core_state", "cht_core",
]
PARTS = [
    ("main.rt.txt", "src/main.rt"),
    ("Full.antt.txt", "specs/Full.antt"),
    ("Driving.antt.txt", "proofs/Driving.antt"),
    ("begin_Answers.antt.txt", "proofs/begin/Answers.antt"),
    ("double_Answers.antt.txt", "proofs/double/Answers.antt"),
    ("drive_Invariants.antt.txt", "proofs/drive/Invariants.antt"),
    ("finish_Answers.antt.txt", "proofs/finish/Answers.antt"),
    ("full_Invariants.antt.txt", "proofs/full/Invariants.antt"),
    ("leaf_Answers.antt.txt", "proofs/leaf/Answers.antt"),
    ("open_Answers.antt.txt", "proofs/open/Answers.antt"),
]
HEIGHTS = [12, 15, 18, 19]


def run(program, height):
    """The nanoseconds of the loop without executions, those of the executions, the events, and the greatest memory in bytes."""
    with tempfile.TemporaryFile("w+") as taken:
        child = subprocess.Popen([program, str(height)], stdout=taken)
        _, status, used = os.wait4(child.pid, 0)
        taken.seek(0)
        text = taken.read()
    if status != 0 or not text.endswith(" true\n"):
        sys.exit(f"the program did not run all tasks: {text}")
    spent, executed, events, _ = text.split()
    return int(spent) - int(executed), int(executed), int(events), used.ru_maxrss * 1024


def main():
    with tempfile.TemporaryDirectory() as folder:
        program = built(folder, "core_bench", CRATES, PARTS)
        rows = []
        for height in HEIGHTS:
            runs = [run(program, height) for _ in range(5)]
            least, executed, events, _ = min(runs)
            rows.append((least / events / 1000, events, min(memory for *_, memory in runs)))
            print(
                f"{3 * 2**height - 2} tasks, {events} events: {rows[-1][0]:.3f} us an event, {rows[-1][0] / rows[0][0]:.2f} times the first;"
                f" executions {executed / 1000:.0f} us; {rows[-1][2] / 2**20:.1f} MiB"
            )
    (_, few, low), (_, many, high) = rows[1], rows[-1]
    print(f"{(high - low) / (many - few):.0f} bytes of memory for each event more")


main()

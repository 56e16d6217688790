#!/usr/bin/env python3
"""Times unfinished tasks: added, started, delivered to and removed, four inputs each.

Copies the crates to a temporary folder, adds there a small program made of the files in bench/graph_bench (a repository of
Rattle has sources in its crates alone, so they have other endings here), has it proved and built, and runs it. Tasks come in
groups of five: four whose inputs are known, and one that awaits these four. All groups are added first, and then run, by the
least Ready task (oldest first) or from the last group to the first (newest first); or each group is run once it is added, so that
few tasks live at a time. For each number of tasks it prints the microseconds of a task and of a call of `Tasks`, and at the
end how these grew from the least number of tasks to the greatest, and the greatest memory of the run for each task that lived
at once.

Usage: bench/task_graph.py
"""
import os
import subprocess
import sys
import tempfile

from parts import built

CRATES = ["cht_ids", "task_states", "task_links", "task_graph"]
PARTS = [
    ("main.rt.txt", "src/main.rt"),
    ("Below.antt.txt", "specs/Below.antt"),
    ("Adds.antt.txt", "proofs/Adds.antt"),
    ("add_all_Answers.antt.txt", "proofs/add_all/Answers.antt"),
    ("add_all_Invariants.antt.txt", "proofs/add_all/Invariants.antt"),
    ("add_awaiting.antt.txt", "proofs/add_awaiting/Answers.antt"),
    ("add_known.antt.txt", "proofs/add_known/Answers.antt"),
    ("deliver_all_Answers.antt.txt", "proofs/deliver_all/Answers.antt"),
    ("deliver_all_Invariants.antt.txt", "proofs/deliver_all/Invariants.antt"),
    ("run.antt.txt", "proofs/run/Answers.antt"),
    ("run_each_Answers.antt.txt", "proofs/run_each/Answers.antt"),
    ("run_each_Invariants.antt.txt", "proofs/run_each/Invariants.antt"),
]
ORDERS = {"oldest": "oldest first", "newest": "newest first", "each": "each group at once"}

# Calls of `Tasks` for a group: for a known task `reserve`, `status` and `add`; for the one that awaits also `status` and `caller`
# of each of the four; for each run `status`, `start`, `awaiter` and `deliver` for each awaiter, `awaiter` twice and `status` at the
# end, and `remove`; and `least_ready` where the oldest is taken.
ADDED = 5 * 3 + 4 * 2
RUN = 5 * 6 + 4 * 2
LEAST = 5


def calls(order):
    return ADDED + RUN + (LEAST if order == "oldest" else 0)


def main():
    with tempfile.TemporaryDirectory() as folder:
        program = built(folder, "graph_bench", CRATES, PARTS)
        with open(os.path.join(folder, "text"), "w+") as taken:
            child = subprocess.Popen([program], stdout=taken)
            _, status, used = os.wait4(child.pid, 0)
            if status != 0:
                sys.exit(f"the program ended with {status}")
            taken.seek(0)
            first = {}
            for line in taken:
                order, groups, reserved, added, ran, all_added, all_ran, left = line.split()
                if (all_added, all_ran, left) != ("true", "true", "false"):
                    sys.exit(f"not all tasks ran: {line}")
                spent, groups = int(added) + int(ran), int(groups)
                call = spent / groups / calls(order)
                first.setdefault(order, call)
                print(
                    f"{5 * groups} tasks, {ORDERS[order]}: reserved in {reserved} us, added in {added} us, run in {ran} us;"
                    f" {spent / groups / 5:.2f} us a task, {call:.3f} us a call, {call / first[order]:.2f} times the first"
                )
                most = 5 * groups
    print(f"at most {used.ru_maxrss * 1024 / most:.0f} bytes of memory for each of {most} tasks")


main()

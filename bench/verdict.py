#!/usr/bin/env python3
"""Times how `cht plain` judges texts of 2^26 bytes and of half as many, good and faulty, and how the time grows.

Makes the inputs in a temporary folder, runs the program three times on each, checks the one line that it writes about each
against the rules of the language, and prints the best time, the peak memory, and the growth from the half to the whole: 2 is
in proportion to the bytes. Usage: bench/verdict.py
"""
import os
import random
import subprocess
import sys
import tempfile
import time
from concurrent.futures import ProcessPoolExecutor

from parts import PROGRAM

WHOLE = 1 << 26
BANNER = "%%MatrixMarket matrix coordinate integer general\n"


def one_line(size):
    """One long line of words that are no statement: code 4 at line 2."""
    head = "grid 4 leaf 2\n"
    return head + "a " * ((size - len(head)) // 2), "cht: line 2: fault 4 Statement\n"


def blank_lines(size):
    """Blank lines alone: no grid line, code 3 at the line after the last."""
    return "\n" * size, f"cht: line {size + 1}: fault 3 Grid\n"


def one_name(size):
    """The same unknown name in each line: code 14 at line 2."""
    head, line = "grid 4 leaf 2\n", "print a\n"
    return head + line * ((size - len(head)) // len(line)), "cht: line 2: fault 14 Unknown\n"


def many_names(size):
    """Copies under new names, of a matrix without entries; the last line names the first again: code 16 there."""
    parts = [f"grid 1 leaf 1\nmarket a\n{BANNER}1 1 0\n"]
    length, number = len(parts[0]), 0
    while True:
        line = f"copy a{number} a\n"
        if length + len(line) + 12 > size:
            break
        parts.append(line)
        length += len(line)
        number += 1
    parts.append("copy a0 a\n")
    return "".join(parts), f"cht: line {number + 5}: fault 16 Taken\n"


def one_place(size):
    """One entry line over and over, in a block: code 11 at the second."""
    line = "1 1 1\n"
    head = f"grid 4096 leaf 32\nmarket a\n{BANNER}4096 4096 16777216\n"
    return head + line * ((size - len(head)) // len(line)), "cht: line 6: fault 11 Repeated\n"


def broken_at_its_end(size, places):
    """Entries of these places, with a value that is no number in the last line: code 5 there."""
    parts = [f"grid 4096 leaf 32\nmarket a\n{BANNER}4096 4096 16777216\n"]
    length, count = len(parts[0]), 0
    for place in places:
        if length >= size - 32:
            break
        line = f"{place // 4096 + 1} {place % 4096 + 1} 7\n"
        parts.append(line)
        length += len(line)
        count += 1
    parts.append("4096 4096 x\n")
    return "".join(parts), f"cht: line {count + 5}: fault 5 Number\n"


def late_fault(size):
    """Entries in order, the last line broken."""
    return broken_at_its_end(size, range(4096 * 4096))


def late_fault_in_any_order(size):
    """Entries in any order, the last line broken."""
    places = list(range(4096 * 4096))
    random.Random(7).shuffle(places)
    return broken_at_its_end(size, places)


INPUTS = [
    ("one long line", one_line),
    ("blank lines", blank_lines),
    ("one name in each line", one_name),
    ("a new name in each line", many_names),
    ("one place over and over", one_place),
    ("entries in order, the last one broken", late_fault),
    ("entries in any order, the last one broken", late_fault_in_any_order),
]


def judged(path, wanted):
    """The best time of three runs in seconds, and the greatest peak of memory in MiB, where the program says what it should."""
    best, peak = None, 0
    for _ in range(3):
        with open(path, "rb") as given, open(path + ".err", "wb") as told:
            start = time.monotonic()
            child = subprocess.Popen([PROGRAM, "plain"], stdin=given, stdout=subprocess.DEVNULL, stderr=told)
            _, _, used = os.wait4(child.pid, 0)
            spent = time.monotonic() - start
        with open(path + ".err") as told:
            said = told.read()
        if said != wanted:
            sys.exit(f"wanted {wanted!r}, and it said {said!r}")
        best = spent if best is None else min(best, spent)
        peak = max(peak, used.ru_maxrss / 1024)
    return best, peak


def write_input(made, size, path):
    """Writes an input, and answers what the program is to tell of it."""
    text, wanted = made(size)
    with open(path, "w") as out:
        out.write(text)
    return wanted


def main():
    if not os.path.exists(PROGRAM):
        sys.exit("build the program first: bin/cht plain < examples/first.cht")
    worst = 0
    with tempfile.TemporaryDirectory() as folder:
        path = os.path.join(folder, "script")
        for name, made in INPUTS:
            times = []
            for size in (WHOLE // 2, WHOLE):
                # In a process of its own: a child's peak of memory is at least that of the process that it was made from.
                with ProcessPoolExecutor(max_workers=1) as writer:
                    wanted = writer.submit(write_input, made, size, path).result()
                times.append(judged(path, wanted))
            growth = times[1][0] / times[0][0]
            worst = max(worst, growth)
            print(f"{name}: {times[0][0]:.2f} s, {times[1][0]:.2f} s, growth {growth:.2f}; peak {times[1][1]:.0f} MiB", flush=True)
    print(f"worst growth {worst:.2f}")


if __name__ == "__main__":
    main()

"""What the benchmarks share: timing a program on an input, and a program proved and built over some of the crates."""
import os
import shutil
import subprocess
import sys
import time

TOP = os.path.dirname(os.path.dirname(os.path.abspath(__file__)))
PROGRAM = os.path.join(TOP, "crates", "cht", "out", "cht")


RUNS = 5


def best_runs(*wanted):
    """Runs commands five times in turn, so that what else the machine does meets all of them. Each is given as the command, the file that
    it reads and the file that it writes. For each the least time in seconds and the greatest peak of memory in MiB."""
    runs = [[one_run(*run) for run in wanted] for _ in range(RUNS)]
    return [(min(spent for spent, _ in of_one), max(peak for _, peak in of_one)) for of_one in zip(*runs)]


def one_run(command, source, target):
    """The time of one run in seconds, and its peak of memory in MiB."""
    with open(source, "rb") as given, open(target, "wb") as taken:
        start = time.monotonic()
        child = subprocess.Popen(command, stdin=given, stdout=taken)
        _, status, used = os.wait4(child.pid, 0)
        spent = time.monotonic() - start
    if status != 0:
        sys.exit(f"{command[0]} ended with {status} on {source}")
    return spent, used.ru_maxrss / 1024


def compiled(folder, compiler, source, *flags):
    """The program of bench/SOURCE, built with that compiler and these flags into the folder."""
    program = os.path.join(folder, "plain")
    subprocess.run([compiler, "-O3", *flags, "-o", program, os.path.join(TOP, "bench", source)], check=True)
    return program


def in_turn(programs, same):
    """Runs programs five times in turn. Each writes the same lines of numbers: the first `same` numbers of a line have to be the
    same in all, and the others are times. By the first numbers, the least times of each program."""
    least = {}
    for _ in range(RUNS):
        texts = [subprocess.run([program], stdout=subprocess.PIPE, check=True, text=True).stdout for program in programs]
        rows = [[line.split() for line in text.splitlines()] for text in texts]
        for lines in zip(*rows, strict=True):
            heads = {tuple(line[:same]) for line in lines}
            if len(heads) != 1:
                sys.exit(f"the programs write different numbers: {lines}")
            times = [[int(word) for word in line[same:]] for line in lines]
            known = least.setdefault(heads.pop(), times)
            for old, new in zip(known, times):
                old[:] = [min(pair) for pair in zip(old, new)]
    return least


def compared(folder, plain, source, name):
    """Runs `cht plain` and the plain program on an input; their best times and peaks, where both write one text."""
    if not os.path.exists(PROGRAM):
        sys.exit("build the program first: bin/cht plain < examples/first.cht")
    texts = [os.path.join(folder, "ours"), os.path.join(folder, "base")]
    ours, base = best_runs(([PROGRAM, "plain"], source, texts[0]), ([plain], source, texts[1]))
    if subprocess.run(["cmp", "-s"] + texts).returncode != 0:
        sys.exit(f"the two programs write different texts: {name}")
    return ours, base


def built(folder, name, crates, parts):
    """The program `name`, made of the files of bench/NAME, proved and built in a copy of the crates below it.

    A repository of Rattle has sources in its crates alone, so the files have other endings in bench/. `crates` are the
    crates that are copied; `parts` pairs each file with its place in the program's crate, of which those in specs/ and proofs/
    are declared there.
    """
    shutil.copy(os.path.join(TOP, "HANDLES"), folder)
    for crate in crates:
        shutil.copytree(
            os.path.join(TOP, "crates", crate),
            os.path.join(folder, "crates", crate),
            ignore=shutil.ignore_patterns("out", "*.log"),
        )
    with open(os.path.join(TOP, "crates.txt")) as known, open(os.path.join(folder, "crates.txt"), "w") as listed:
        for line in known:
            if line.partition(":")[0].split()[:1] in [[crate] for crate in crates]:
                listed.write(line)
        listed.write(f"{name}: {' '.join(crates)}\n")
    bench = os.path.join(folder, "crates", name)
    for part, place in parts:
        os.makedirs(os.path.dirname(os.path.join(bench, place)), exist_ok=True)
        shutil.copy(os.path.join(TOP, "bench", name, part), os.path.join(bench, place))
        kind, module = place.split("/")[0], place.split("/")[1]
        if kind in ("specs", "proofs") and module.endswith(".antt"):
            with open(os.path.join(bench, kind, "Lib.antt"), "a") as lib:
                lib.write(f"pub mod {module[:-5]}\n")
    subprocess.run(["git", "init", "-q", folder], check=True)
    made = subprocess.run(["rt", "run"], cwd=bench, stdout=subprocess.PIPE, stderr=subprocess.PIPE)
    program = os.path.join(bench, "out", name)
    if made.returncode != 0 or not os.path.exists(program):
        sys.exit((made.stdout + made.stderr).decode()[-4000:])
    return program

#!/usr/bin/env python3
"""Shows that a crate above the core cannot make a `Record` of a journal: the compiler refuses it.

Clones the repository to a temporary folder, adds a crate that puts a journal of its own into a `Record`, and checks it. It is as it
should be where the check names the private field, and no other error. Usage: checks/closed_record.py (some minutes)
"""
import os
import subprocess
import sys
import tempfile

TOP = os.path.dirname(os.path.dirname(os.path.abspath(__file__)))
FORGED = """#![tactic(auto)]

use cht_core::Record;
use cht_history::Journal;
use task_types::Library;

pub fn forged<L: Library>(journal: Journal<L::Kind>) -> Record<L> {
    Record { kept: journal }
}
"""
REFUSED = "error[private-field]: field `kept` of struct `Record` is private"


def main():
    with tempfile.TemporaryDirectory() as folder:
        copy = os.path.join(folder, "copy")
        subprocess.run(["git", "clone", "-q", TOP, copy], check=True)
        crate = os.path.join(copy, "crates", "forged_record")
        os.makedirs(os.path.join(crate, "src"))
        with open(os.path.join(crate, "src", "lib.rt"), "w") as source:
            source.write(FORGED)
        with open(os.path.join(copy, "crates.txt"), "a") as listed:
            listed.write("forged_record: cht_core cht_history task_types\n")
        checked = subprocess.run(["rt", "check"], cwd=crate, stdout=subprocess.PIPE, stderr=subprocess.STDOUT, text=True)
    errors = [line for line in checked.stdout.splitlines() if "error[" in line]
    if checked.returncode == 0 or not errors or not all(REFUSED in line for line in errors):
        sys.exit("a record was made outside the core, or the check stopped elsewhere:\n" + checked.stdout[-2000:])
    print(errors[0])


main()

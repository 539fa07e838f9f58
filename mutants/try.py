#!/usr/bin/env python3
"""Tries the mutants that stand beside the gate, each of which has to be refused.

    mutants/try.py [CRATE ..]

mutants/CRATE/NAME.edit has the form of crates/CRATE/must-fail/NAME.edit, which the gate tries. With no CRATE the mutants
of all crates are tried, which takes long: each is a check of its crate. It needs the command `rt`.

They are tried in a copy of the working tree beside the repository, by `rt must-fail`, whose status is that of this command.
The copy has the libraries that stand in crates/*/out, as `rt run` leaves them in crates/mseplay, by hard links. One that
is not there, or whose text has changed since, is proved anew in the copy.
"""
import os
import shutil
import subprocess
import sys
import tempfile

MUTANTS = os.path.dirname(os.path.abspath(__file__))
TOP = os.path.dirname(MUTANTS)


def main():
    known = sorted(name for name in os.listdir(MUTANTS) if os.path.isdir(os.path.join(MUTANTS, name)))
    names = sorted(set(sys.argv[1:])) or known
    unknown = [name for name in names if name not in known]
    if unknown:
        sys.exit(f"no folder of mutants: {' '.join(unknown)}")
    with tempfile.TemporaryDirectory(prefix="mutants-", dir=os.path.dirname(TOP)) as room:
        copy(room)
        for name in names:
            shutil.copytree(os.path.join(MUTANTS, name), os.path.join(room, "crates", name, "must-fail"))
        status, tried = run(room, names)
    count = sum(len(os.listdir(os.path.join(MUTANTS, name))) for name in names)
    print(f"{tried} of {count} mutants tried, status {status}")
    sys.exit(status)


def copy(room):
    """The crates without the mutants of the gate and without what is built, and then the libraries that are built."""
    for name in ["crates.txt", "HANDLES"]:
        shutil.copy(os.path.join(TOP, name), room)
    left_out = shutil.ignore_patterns("out", "must-fail")
    shutil.copytree(os.path.join(TOP, "crates"), os.path.join(room, "crates"), ignore=left_out)
    for name in os.listdir(os.path.join(TOP, "crates")):
        built = os.path.join(TOP, "crates", name, "out", "rlib")
        if os.path.isdir(built):
            shutil.copytree(built, os.path.join(room, "crates", name, "out", "rlib"), copy_function=os.link)


def run(room, names):
    """The status of `rt must-fail`, and how many edits it tried."""
    tried = 0
    with subprocess.Popen(["rt", "must-fail", *names], cwd=room, stdout=subprocess.PIPE, text=True, errors="replace") as rt:
        for line in rt.stdout:
            print(line, end="", flush=True)
            tried += line.startswith("rt: must-fail ")
    return rt.returncode, tried


if __name__ == "__main__":
    main()

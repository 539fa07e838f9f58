#!/usr/bin/env python3
"""Prints which files of lemmas cover which definitions, for a proof that breaks.

    lemmas.py NAME              each definition of crates/NAME/specs, and the files of that crate's proofs/ that cite it
    lemmas.py NAME DEFINITION   the files of every crate's proofs/ that cite this one, those of the crate first

A file of proofs cites a definition where one of its `use` lines imports it; behind it stands what its first line says
that it shows. Files of a function's own proof (proofs/FILE/FUNCTION) are counted, or, of one definition, named.
"""
import glob
import os
import re
import sys

TOP = os.path.normpath(os.path.join(os.path.dirname(os.path.abspath(__file__)), ".."))
DEFINITION = re.compile(r"^(?:(?:pub|abbrev|unfoldable|opaque|data|record) )+([\w«»]+)", re.M)
USE = re.compile(r"^use Rattle\.(\w+)\.specs\.([\w.]+)\.\{([^}]*)\}", re.M)


def read(path):
    with open(path, encoding="utf-8") as file:
        return file.read()


def crates():
    """The crates of crates.txt, lowest first."""
    lines = read(f"{TOP}/crates.txt").split("\n")
    return [line.split(":")[0].split()[0] for line in lines if line.strip() and not line.startswith("#")]


def definitions(crate):
    """Each definition of the crate, with its file."""
    for path in sorted(glob.glob(f"{TOP}/crates/{crate}/specs/**/*.antt", recursive=True)):
        for name in DEFINITION.findall(read(path)) if not path.endswith("/Lib.antt") else ():
            yield name, os.path.relpath(path, f"{TOP}/crates/{crate}")


def proofs(crate):
    """The files of proofs of a crate, and whether each is of one function alone."""
    folder = f"{TOP}/crates/{crate}/proofs"
    for path in sorted(glob.glob(f"{folder}/**/*.antt", recursive=True)):
        yield path, os.path.dirname(path) != folder


def cited(path):
    """The definitions that a file imports, each as its crate and name."""
    return {(crate, name.strip()) for crate, _, names in USE.findall(read(path)) for name in names.split(",")}


def shows(path):
    first = read(path).split("\n", 1)[0]
    return first[3:] if first.startswith("-- ") else ""


def print_crate(crate):
    covers, own = {}, {}
    for path, is_own in proofs(crate):
        for of, name in cited(path):
            if of == crate:
                (own if is_own else covers).setdefault(name, []).append(os.path.basename(path))
    for name, file in definitions(crate):
        count = len(own.get(name, []))
        words = covers.get(name, []) + ([f"{count} of functions"] if count else [])
        print(f"{name} ({file}): {', '.join(words) or 'none'}")


def print_definition(crate, name):
    order = [crate, *(each for each in crates() if each != crate)]
    for each in order:
        for path, _ in proofs(each):
            if (crate, name) in cited(path):
                says = shows(path)
                print(f"crates/{os.path.relpath(path, f'{TOP}/crates')}" + (f"  {says}" if says else ""))


def main():
    words = sys.argv[1:]
    if not 1 <= len(words) <= 2 or words[0] not in crates():
        sys.exit(__doc__)
    if len(words) == 1:
        print_crate(words[0])
    elif words[1] in {name for name, _ in definitions(words[0])}:
        print_definition(*words)
    else:
        sys.exit(f"{words[0]} has no definition {words[1]}")


if __name__ == "__main__":
    main()

#!/usr/bin/env python3
"""Counts the lines of code that stand in two places.

    copies.py [--groups N] [FOLDER]

FOLDER is the top of the repository (default: the one that this script stands in). The first line printed is
"M of N lines stand in two places"; then come the N largest groups of places that have lines in common (default: all),
the largest first.

Read are the files crates/*/src/**/*.rt: no crate whose name ends with _tests, and no module of tests (tests.rt, tests/).
Passed over, and not counted, are blank lines, comments and documentation (lines that begin with //), and lines that
begin with `use` or `ghost use`, to the `;` at their end. Of the lines that are left, with the space at their ends taken
off, each five in a row of one file are a window. A line stands in two places where it lies in a window that is equal to
another one, of the same file or of another. Definitions (specs/) and proofs are not read.
"""
import argparse
import os
import re

WINDOW = 5
USE = re.compile(r"(ghost )?use\b")


def sources(top):
    """The files that are read."""
    crates = os.path.join(top, "crates")
    for crate in sorted(os.listdir(crates)):
        if crate.endswith("_tests"):
            continue
        for folder, names, files in os.walk(os.path.join(crates, crate, "src")):
            names[:] = sorted(name for name in names if name != "tests")
            yield from (os.path.join(folder, name) for name in sorted(files)
                        if name.endswith(".rt") and name != "tests.rt")


def code_lines(path):
    """The lines that count, each with its number in the file."""
    lines, inside_use = [], False
    with open(path, encoding="utf-8") as file:
        for number, line in enumerate(file, 1):
            line = line.strip()
            if inside_use:
                inside_use = ";" not in line
            elif USE.match(line):
                inside_use = not line.endswith(";")
            elif line and not line.startswith("//"):
                lines.append((number, line))
    return lines


def windows_in_two_places(code):
    """The places (file, index of its first line) of each window that stands in two places or more."""
    places = {}
    for path, lines in code.items():
        texts = [text for _, text in lines]
        for start in range(len(texts) - WINDOW + 1):
            places.setdefault(tuple(texts[start:start + WINDOW]), []).append((path, start))
    return [found for found in places.values() if len(found) > 1]


def pieces(copied):
    """The copied lines as runs without a gap: from each line to the run (file, first, last) in which it lies."""
    run_of, run = {}, []

    def close():
        if run:
            whole = (run[0][0], run[0][1], run[-1][1])
            run_of.update((line, whole) for line in run)

    for line in sorted(copied):
        if run and (line[0], line[1] - 1) != run[-1]:
            close()
            run = []
        run.append(line)
    close()
    return run_of


def groups(found, run_of):
    """Runs that have a window in common, together; the group with the most lines first."""
    head = {run: run for run in run_of.values()}

    def top_of(run):
        while head[run] != run:
            run = head[run]
        return run

    for places in found:
        first = top_of(run_of[places[0]])
        for place in places[1:]:
            head[top_of(run_of[place])] = first
    together = {}
    for run in head:
        together.setdefault(top_of(run), []).append(run)
    size = lambda runs: sum(last - first + 1 for _, first, last in runs)
    return sorted(((size(runs), sorted(runs)) for runs in together.values()), key=lambda g: (-g[0], g[1]))


def main():
    parser = argparse.ArgumentParser()
    parser.add_argument("--groups", type=int, default=None)
    parser.add_argument("folder", nargs="?", default=os.path.join(os.path.dirname(os.path.abspath(__file__)), ".."))
    given = parser.parse_args()
    code = {path: code_lines(path) for path in sources(given.folder)}
    found = windows_in_two_places(code)
    copied = {(path, start + n) for places in found for path, start in places for n in range(WINDOW)}
    print(f"{len(copied)} of {sum(map(len, code.values()))} lines stand in two places")
    for size, runs in groups(found, pieces(copied))[:given.groups]:
        print(f"\n{size} lines")
        for path, first, last in runs:
            lines = code[path]
            name = os.path.relpath(path, os.path.join(given.folder, "crates"))
            print(f"  {name}:{lines[first][0]}-{lines[last][0]}  {lines[first][1]}")


if __name__ == "__main__":
    main()

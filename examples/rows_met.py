#!/usr/bin/env python3
"""Prints which rows of docs/SCRIPTS.md and which steps of docs/MACHINE.md no case of crates/case_runs/data meets.

A row of SCRIPTS.md is met where a text has its line or a script its word: a call is met in two ways, done and refused.
Only texts and scripts count that a line of cases.txt names. A step of MACHINE.md is met where a heading of cases.txt
names it (`# Seek 4`), with a case below it; so is a word of a line, a kind of time, and a key that is left out.
"""
import os
import re
import sys

TOP = os.path.join(os.path.dirname(os.path.abspath(__file__)), "..")
DATA = os.path.join(TOP, "crates", "case_runs", "data")
PATTERNS = {"K": r"\d+", "B": r"\d+", "F": r"\d+", "L": r"\d+", "T": r"\S+", "TYPE": ".+"}
# What no case meets, and why.
ELSEWHERE = {
    "status 5": "bench/refused.py refuses memory",
    "Faults: fault 18 `Counts`": "after 2^62 frames or bytes",
    "MACHINE.md: Coded frame processing 1": "after 2^62 frames or bytes",
    "MACHINE.md: A step of the machine: A journal": "no line shows it; the contract of `run` does (`ends`)",
    "Keys: quota left out": "it is 134,217,728 bytes of frames; the crate script_tests reads it",
    "Keys: drain left out": "it is 100,000 calls, each with a line; the crate script_tests reads it",
}
# The call of a rule of MACHINE.md.
CALLS = {
    "Mode": "mode", "Timestamp offset": "offset", "Append window start": "windowstart",
    "Append window end": "windowend", "Remove": "remove", "Append": "append", "Abort": "abort",
    "Change of type": "changetype", "Attach": "attach", "Add a source buffer": "add",
    "Remove a source buffer": "removebuffer", "Duration": "duration", "End of stream": "endofstream",
    "Live seekable range": "live",
}
NEVER_REFUSED = {"state", "pause", "elementbuffered", "seekable"}


def text_of(path):
    with open(path, encoding="utf-8", errors="replace") as file:
        return file.read()


def document(name):
    return text_of(os.path.join(TOP, "docs", name))


def cases():
    """The heading, the status, the way, the text and the words of each line."""
    heading = ""
    for line in text_of(os.path.join(DATA, "cases.txt")).splitlines():
        if line.startswith("# "):
            heading = line[2:]
        elif line:
            status, way, text, *words = line.split()
            yield heading, status, way, text, words


def joined(names):
    return "\n".join(text_of(os.path.join(DATA, name)) for name in sorted(set(names)))


def sections(text):
    """The lines below each heading of a document, by the heading."""
    found, title = {}, ""
    for line in text.splitlines():
        if line.startswith("#"):
            title = line.lstrip("# ")
        found.setdefault(title, []).append(line)
    return found


def tables(lines):
    """The rows of each table, as lists of cells."""
    for table in re.findall(r"(?:^\|.*\n)+", "\n".join(lines) + "\n", re.M):
        yield [[cell.strip() for cell in row.strip("|").split("|")] for row in table.splitlines()[2:]]


def words_in(cell):
    return re.findall(r"`([^`]+)`", cell)


def faults(found, printed):
    """The numbers and names of the two tables of faults, and the names inside `Init` and `Moof`."""
    for title, what in (("A classic file as fragments", "remux"), ("Faults", "ranges")):
        first, *inner = tables(found[title])
        for number, name, *_ in first:
            yield f"{title}: fault {number} {name}", f"fault {number} {name.strip('`')}" in printed
        for outer, rows in zip(("Init", "Moof"), inner):
            for name, meaning, *_ in rows:
                names = words_in(name)
                if names == ["Missing BOX"]:
                    names = [f"Missing {box}" for box in words_in(meaning)]
                for each in names:
                    yield f"{title}: {outer} {each}", f"{outer} {each} " in printed


def answers(found, printed):
    rows = dict(row for row in list(tables(found["Lines of calls and events"]))[1])
    for name in words_in(rows["`refused`"]):
        yield f"answer refused {name}", f"refused {name}" in printed
    for state in ("closed", "open", "ended"):
        yield f"source {state}", re.search(rf"source {state} duration", printed)
    for word, values in (("level", "01234"), ("error", "0234")):
        for value in values:
            yield f"{word} {value}", re.search(rf" {word} {value}\b", printed)
    for word in ("paused", "seeking"):
        for value in ("true", "false"):
            yield f"{word} {value}", f" {word} {value}" in printed
    for line in (r": ranges none$", r": ranges \[", r": range none$", r": range \[", r": done$"):
        yield f"answer {line}", re.search(line, printed, re.M)
    for phase in ("waiting", "init", "media"):
        yield f"phase {phase}", f"phase {phase} " in printed


def calls(found, printed):
    for row in next(tables(found["Call lines"])):
        line = words_in(row[0])[0]
        pattern = " ".join(PATTERNS.get(word, word) for word in line.split())
        yield f"call {line}, done", re.search(rf"^call {pattern}: (?!refused)", printed, re.M)
        if line not in NEVER_REFUSED:
            yield f"call {line}, refused", re.search(rf"^call {pattern}: refused", printed, re.M)


def refusals(printed):
    """The names by which the rules of MACHINE.md refuse each call."""
    for rule, text in re.findall(r"^- \*(.+?)\.\* (.*)$", document("MACHINE.md"), re.M):
        if rule in CALLS:
            for name in sorted(set(re.findall(r"\w+Error", text))):
                line = rf"^call {CALLS[rule]}\b.*: refused {name}$"
                yield f"call {CALLS[rule]}, refused {name}", re.search(line, printed, re.M)


def steps_and_keys(found, scripts):
    for row in next(tables(found["Step lines"])):
        word = words_in(row[0])[0].split()[0]
        yield f"step {word}", re.search(rf'"{word}\b', scripts)
    for title in ("Keys", "Rules"):
        for row in next(tables(found[title])):
            key = words_in(row[0])[0]
            yield f"key {key}", re.search(rf"\b{key} = ", scripts)
    for row in next(iter(list(tables(found["Keys"]))[1:])):
        word = words_in(row[0])[0].split()[0]
        yield f"blob {word}", re.search(rf'"{word} ', scripts)


def events(found, printed, scripts):
    for row in list(tables(found["Rules"]))[1]:
        target = words_in(row[0])[0].replace("K", r"\d+")
        for kind in words_in(row[1]):
            yield f"event {target} {kind}", re.search(rf"^event {target} {kind}$", printed, re.M)
            yield f"event {target} {kind}, heard", re.search(rf'on = "{target} {kind}"', scripts)


def script_faults(found, printed):
    for number, name, line, *_ in next(tables(found["Faults of a script"])):
        pattern = line.strip("`").replace("NAME", r"\S+").replace("KEY", r"(blobs|steps|rules)").replace(" N", r" \d+")
        yield f"fault {number} of a script, {name}", re.search(rf"^{pattern}$", printed, re.M)


def statuses(found, listed):
    for status, *_ in next(tables(found["Commands"])):
        # a put or a load that fails is a way of a case
        ways = {"3": "loads", "4": "puts"}
        yield f"status {status}", any(case[1] == status or case[2] == ways.get(status) for case in listed)


def feeds(found, printed):
    for row in next(tables(found["Frames for a decoder"])):
        line = words_in(row[0])[0]
        front = line.split()[0] + (" " + line.split()[1] if line.startswith("end") else "")
        yield f"feed line {line}", re.search(rf"^{front}\b.*{'none' if line.endswith('none') else ''}$", printed, re.M)


def named_rows(found):
    """The rows that no printed line shows: words of lines, times, and keys that are left out."""
    for table in tables(found["Words of lines"]):
        for row in table:
            yield f"Words of lines: {row[0].replace('`', '')}"
    for title in ("Keys", "Rules"):
        for row in next(tables(found[title])):
            yield f"{title}: {words_in(row[0])[0]} left out"


def name_of_row(cells):
    """How a row of a table is named: by its first cell, or by two where they say from what to what."""
    first, second = cells[0].replace("`", ""), cells[1].replace("`", "")
    if first.replace(", ", "").isdigit():
        return f"{first} to {second}"
    return f"{first}, {second}" if first == "infinite" else first


def machine_steps():
    """The names of the steps of MACHINE.md: of items and rows, and of leads in bold that have none."""
    section = lead = waiting = ""
    lines = document("MACHINE.md").splitlines()
    for line, following in zip(lines, [*lines[1:], ""]):
        bold, item, bullet = (re.match(it, line) for it in (r"\*\*(.+?)[.:]?\*\*", r"(\d+)\. ", r"- \*(.+?)[.]?\*"))
        row = [cell.strip() for cell in line.strip("|").split("|")] if line.startswith("|") else []
        is_head = row and (line.startswith("|---") or following.startswith("|---"))
        if waiting and (bold or line.startswith("## ")):
            yield waiting
            waiting = ""
        if line.startswith("## "):
            section = lead = line[3:]
        elif bold:
            lead, waiting = bold[1], f"{section}: {bold[1]}"
        elif item or bullet or row and not is_head:
            waiting = ""
            if item:
                yield f"{lead} {item[1]}"
            else:
                yield f"{section}: {bullet[1]}" if bullet else f"{lead}: {name_of_row(row)}"
    if waiting:
        yield waiting


def main():
    found, listed = sections(document("SCRIPTS.md")), list(cases())
    printed = joined(text for *_, text, _ in listed)
    scripts = joined(word for *_, words in listed for word in words if word.endswith(".toml"))
    headings = {part for heading, *_ in listed for part in heading.split("; ")}
    named = [(row, row in headings) for row in named_rows(found)]
    steps = [(f"MACHINE.md: {step}", step in headings) for step in machine_steps()]
    rows = [*statuses(found, listed), *faults(found, printed), *feeds(found, printed), *answers(found, printed),
            *calls(found, printed), *refusals(printed), *steps_and_keys(found, scripts),
            *events(found, printed, scripts), *script_faults(found, printed), *named, *steps]
    lacking = [name for name, met in rows if not met and name not in ELSEWHERE]
    lacking += [f"{name}, which is no row or is met" for name in ELSEWHERE if dict(rows).get(name, True)]
    print("\n".join([*lacking, f"{len(rows)} rows and steps, {len(lacking)} without a case"]))
    print("\n".join(f"no case meets {name}: {why}" for name, why in ELSEWHERE.items()))
    sys.exit(1 if "--strict" in sys.argv and lacking else 0)


if __name__ == "__main__":
    main()

#!/usr/bin/env python3
"""Tries the cases of crates/case_runs/data, and what the documents say that the program prints.

    check.py PROGRAM [--store]
    check.py PROGRAM --only WORD ..

PROGRAM is crates/mseplay/out/mseplay, as `rt run` leaves it. README.md says what a line of cases.txt is. Puts and loads
that fail are tried by crates/case_runs alone, which has a sink and a library for it. A block of a document whose first
line begins with `$ mseplay` has what these words print in that folder; a line `...` in it stands for any lines, and
`> NAME` behind the words makes a file for the blocks below. Each file of that folder has a row in README.md, or a line
of cases.txt.

--store writes the texts anew. --only tries the cases alone whose line, or whose heading, has one of these words.
"""
import glob
import os
import re
import shutil
import subprocess
import sys
import tempfile
from concurrent.futures import ThreadPoolExecutor

HERE = os.path.dirname(os.path.abspath(__file__))
TOP = os.path.dirname(HERE)
DATA = os.path.join(TOP, "crates", "case_runs", "data")
# the status of a run whose block tells a fault
MEDIA = 9


def cases(only=("",)):
    """The status, the way, the text's name and the words of each line that, or whose heading, has one of some words."""
    heading = ""
    with open(os.path.join(DATA, "cases.txt"), encoding="utf-8") as lines:
        for line in lines:
            if line.startswith("#"):
                heading = line
            elif line.strip() and any(word in heading or word in line for word in only):
                status, way, text, *words = line.split()
                yield int(status), way, text, [word.replace("␣", " ") for word in words]


def read(name, folder=DATA):
    with open(os.path.join(folder, name), "rb") as file:
        return file.read()


def printed(program, words, folder=DATA):
    run = subprocess.run([program, *words], cwd=folder, stdout=subprocess.PIPE)
    return run.returncode, run.stdout


def printed_of_script(program, words, script):
    """What is printed where the script that the words play has another text."""
    with tempfile.NamedTemporaryFile(suffix=".toml") as file:
        file.write(script)
        file.flush()
        return printed(program, [words[0], file.name, *words[2:]])


def repeated(script, count):
    lines = script.decode().splitlines(keepends=True)
    return "".join(line * (count if line.endswith("# repeat\n") else 1) for line in lines).encode()


def is_as_wanted(program, way, words):
    """What the words of a line print that is tried once."""
    if way in ("run", "indexed"):
        return printed(program, words)
    return printed_of_script(program, words, repeated(read(words[1]), int(way.partition("=")[2])))


def try_once(program, status, way, text, words, stores):
    ended, found = is_as_wanted(program, way, words)
    if stores:
        with open(os.path.join(DATA, text), "wb") as out:
            out.write(found)
    if found != read(text):
        yield f"prints something else than {text}"
    if ended != status:
        yield f"ends with {ended} and not with {status}"


def closing(text):
    return text.rpartition(b" error ")[2]


def try_cuts(program, status, text, words):
    """The script's first append of a part of a blob is cut at each byte: the run closes with the same block."""
    script = read(words[1]).decode()
    append = re.search(r'"append (\d+) (\d+) (\d+) (\d+)"', script)
    buffer, blob, first, length = map(int, append.groups())
    for at in range(length + 1):
        steps = f'"append {buffer} {blob} {first} {at}", "drain", "append {buffer} {blob} {first + at} {length - at}"'
        cut = script[:append.start()] + steps + script[append.end():]
        ended, found = printed_of_script(program, words, cut.encode())
        if ended != status or closing(found) != closing(read(text)):
            yield f"closes with another block than {text}, cut at {at}"


def rows_of(table):
    """The shortest and the longest front part, the byte from which the bytes held are counted, and the block."""
    for row in re.split(r"^bytes ", table, flags=re.M)[1:]:
        numbers, _, block = row.partition("\n")
        yield (*map(int, numbers.split()), block)


def try_fronts(program, name, text, words, folder):
    """A file is cut at each byte. The rows of the table follow each other, from 0 to its length."""
    content, following = read(name), 0
    for shortest, longest, base, block in rows_of(read(text).decode()):
        if shortest != following:
            yield f"{text} has no row of {following} bytes"
        following = longest + 1
        for length in range(shortest, longest + 1):
            with open(os.path.join(folder, name), "wb") as out:
                out.write(content[:length])
            ended, found = printed(program, words, folder)
            wanted = block.replace("*", str(length - base)).encode()
            status = MEDIA if b"\nfault " in wanted and words[0] != "play" else 0
            is_wanted = found.endswith(wanted) if words[0] == "play" else found == wanted
            if ended != status or not is_wanted:
                yield f"prints something else than {text} at {length} bytes"
    if following != len(content) + 1:
        yield f"{text} has no row of {len(content)} bytes"


def try_fronts_apart(program, name, text, words):
    with tempfile.TemporaryDirectory() as room:
        folder = os.path.join(room, "data")
        shutil.copytree(DATA, folder)
        yield from try_fronts(program, name, text, words, folder)


def try_case(program, status, way, text, words, stores):
    kind, _, value = way.partition("=")
    if kind in ("run", "indexed", "repeat"):
        found = try_once(program, status, way, text, words, stores)
    elif kind == "cut":
        found = try_cuts(program, status, text, words)
    elif kind == "fronts":
        found = try_fronts_apart(program, value, text, words)
    else:
        found = []
    return [f"{way} {' '.join(words)} {fault}" for fault in found]


def try_cases(program, stores, tried):
    with ThreadPoolExecutor(os.cpu_count()) as pool:
        for faults in pool.map(lambda case: try_case(program, *case, stores), tried):
            yield from faults


# the runs that a document tells, each as its words and the lines below them
def told_runs(document):
    with open(document) as lines:
        text = lines.read()
    blocks = re.findall(r"^```[a-z]*\n(.*?)^```$", text, re.M | re.S)
    blocks += [re.sub("^    ", "", block, flags=re.M) for block in re.findall(r"(?:^    .*\n)+", text, re.M)]
    for block in blocks:
        for told in re.split(r"^(?=\$ )", block, flags=re.M):
            if told.startswith("$ mseplay "):
                first, *rest = told.rstrip("\n").split("\n")
                yield first.split()[2:], rest


def is_told(text, told):
    pattern = "".join("(?:.*\n)*?" if line == "..." else re.escape(line) + "\n" for line in told)
    return re.fullmatch(pattern, text) is not None


# what is printed for these words, of which `> NAME` puts it into the file NAME of the folder `made`
def told_text(program, words, made):
    words, _, name = " ".join(words).partition(" > ")
    files = {file: os.path.join(made, file) for file in os.listdir(made)}
    text = printed(program, [files.get(word, word) for word in words.split()])[1]
    if not name:
        return text.decode()
    with open(os.path.join(made, name), "wb") as out:
        out.write(text)
    return ""


def try_documents(program, made):
    readme = os.path.join(HERE, "README.md")
    for document in [*glob.glob(f"{TOP}/*.md"), *glob.glob(f"{TOP}/docs/**/*.md", recursive=True), readme]:
        for words, told in told_runs(document):
            if not is_told(told_text(program, words, made), told):
                yield f"{os.path.relpath(document, TOP)}: {' '.join(words)} prints something else"


def try_names():
    with open(os.path.join(HERE, "README.md")) as readme:
        named = set(re.findall(r"`([^`\s]+)`", readme.read()))
    tried = {"cases.txt"}
    for _, way, text, words in cases():
        tried |= {text, *words, way.partition("=")[2]}
    for script in {name for name in tried if name.endswith(".toml")}:
        tried |= set(re.findall(r'"file ([^"]+)"', read(script).decode(errors="replace")))
    for folder, _, names in os.walk(DATA):
        for path in sorted(os.path.relpath(os.path.join(folder, name), DATA) for name in names):
            if path not in tried:
                yield f"no line of cases.txt tries {path}"
            if "/" not in path and path not in named and not path.endswith(".txt"):
                yield f"README.md does not name {path}"


def main():
    if len(sys.argv) < 2:
        sys.exit(__doc__)
    program, stores = os.path.realpath(sys.argv[1]), "--store" in sys.argv
    only = sys.argv[sys.argv.index("--only") + 1:] if "--only" in sys.argv else None
    tried = list(cases(only) if only else cases())
    faults = list(try_cases(program, stores, tried))
    if not only:
        with tempfile.TemporaryDirectory() as made:
            faults += [*try_documents(program, made), *try_names()]
    print("\n".join([*faults, f"{len(tried)} cases, {len(faults)} faults"]))
    sys.exit(1 if faults or not tried else 0)


main()

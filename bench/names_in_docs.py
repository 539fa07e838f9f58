#!/usr/bin/env python3
"""Compares the names in README.md and in docs with the code, and prints what is not there.

    names_in_docs.py [FOLDER]

FOLDER is the top of the repository (default: the one that this script stands in). Read are README.md, docs/proof/PROVED.md,
docs/proof/ARCHITECTURE.md, docs/proof/READING.md, docs/proof/NOTES.md and docs/LIBRARY.md. It prints a line for each name that it
does not find, and ends with 1 if there is one.

- Tables of calls (README.md: the third cell of a row that begins with a crate; docs/proof/PROVED.md: the first two cells below
  a heading `## CRATE: ..`): each call is a function, a type, a trait or a constant of that crate, `Owner::call` one of
  an impl or a trait of that type, `module::call` one of that file. Each clause is a label of an `ensures` of a call of
  its row, or a definition of the crate's specs/; the name in "those of `name`" is no clause. A row without a call speaks
  of the calls of the row above it, or, where its first cell says so in words, of any call of the crate. Where both
  cells have as many parts between semicolons, the clauses of a part are those of its calls.
- All words in backticks, also these: `name` and `Owner::name` stand in some file of code (crates/*/src, specs, proofs) or
  are the name of a crate or of a file; `name` of `crate` stands in that crate; `name` (`A.antt`) stands in a file of
  that name, `name` (`crate`, `A.antt`) in that file of the crate; and `A.antt`, `specs/A.antt` is a file.
- The code that docs/LIBRARY.md quotes is the file of the gate's tests that it names first, word for word.
"""
import glob
import os
import re
import sys

DEFAULT = os.path.join(os.path.dirname(os.path.abspath(__file__)), "..")
# documents that have no table of calls with their clauses
PROSE = ["docs/proof/ARCHITECTURE.md", "docs/proof/READING.md", "docs/proof/NOTES.md", "docs/LIBRARY.md"]
# boxes of ISO/IEC 14496-12 of which only documents speak
BOXES = {"enca"}
WORD = re.compile(r"`([A-Za-z_]\w*(?:::\w+)*)`")
FUNCTION = re.compile(r"^( *)(?:pub(?:\([^)]*\))? )?(?:const )?(?:unsafe )?(?:extern \"C\" )?fn (\w+)", re.M)
OWNER = re.compile(r"^(?:pub )?(?:unsafe )?(?:impl(?:<[^{]*?>)? (?:([\w:]+)(?:<[^{]*?>)? for )?([\w:]+)|trait (\w+))", re.M)
ITEM = re.compile(r"^ *(?:pub(?:\([^)]*\))? )?(?:struct|enum|trait|const|type|mod) (\w+)", re.M)
LABEL = re.compile(r"\bensures\*? (\w+) *\{")
DEFINITION = re.compile(r"^(?:(?:pub|abbrev|unfoldable|opaque|data|record) )+([\w«»]+)", re.M)


def read(path):
    with open(path, encoding="utf-8") as file:
        return file.read()


def files_of(top, crate, *folders):
    """The files of code of a crate in these folders."""
    return [path for folder in folders
            for path in sorted(glob.glob(f"{top}/crates/{crate}/{folder}/**/*", recursive=True))
            if path.endswith((".rt", ".antt"))]


class Crate:
    """The functions of a crate with their owners, files and labels; its items and definitions; all its words."""

    def __init__(self, top, name):
        self.functions, self.items, self.definitions, self.words = {}, set(), set(), set()
        for path in files_of(top, name, "src", "specs", "proofs"):
            text = read(path)
            self.words.update(re.findall(r"\w+", text))
            if "/specs/" in path:
                self.definitions.update(DEFINITION.findall(text))
            if "/src/" in path and "/tests" not in path:
                self.items.update(ITEM.findall(text))
                self.read_functions(path, text)

    def read_functions(self, path, text):
        heads = list(FUNCTION.finditer(text))
        for head, end in zip(heads, [h.start() for h in heads[1:]] + [len(text)]):
            owners = {os.path.splitext(os.path.basename(path))[0]}
            if head.group(1):
                above = [o.groups() for o in OWNER.finditer(text, 0, head.start())]
                owners |= {owner.split("::")[-1] for owner in (above[-1] if above else ()) if owner}
            labels = set(LABEL.findall(text[head.start():end]))
            self.functions.setdefault(head.group(2), []).append((owners, labels))

    def named(self, name):
        """The functions that a name means; None where it means nothing, [] where it is no function but an item."""
        owner, _, call = name.rpartition("::")
        owner = owner.split("::")[-1]
        found = [f for f in self.functions.get(call, []) if not owner or owner in f[0]]
        if found:
            return found
        if name in self.items:
            return [f for fs in self.functions.values() for f in fs if name in f[0]]
        return None

    def labels(self):
        """The labels of all clauses of the crate."""
        return {label for fs in self.functions.values() for _, labels in fs for label in labels}


def paths_of(top):
    """The files of the repository, and their folders."""
    for folder, names, files in os.walk(top):
        names[:] = [name for name in names if name not in ("out", ".git")]
        yield from (os.path.join(folder, name) for name in names + files)


def crates_of(top):
    names = [line.split(":")[0].split()[0] for line in read(f"{top}/crates.txt").split("\n")
             if line.strip() and not line.startswith("#")]
    return {name: Crate(top, name) for name in names}


class Checker:
    def __init__(self, top):
        self.top, self.crates, self.missing = top, crates_of(top), []

    def miss(self, place, what):
        self.missing.append(f"{place}: {what}")

    def functions_named(self, place, crate, cell):
        """The functions that a cell names, each name with what it means."""
        found = []
        for name in WORD.findall(cell):
            named = self.crates[crate].named(name)
            if named is None:
                self.miss(place, f"{crate} has no call {name}")
            else:
                found.append((name, named))
        return found

    def clauses(self, place, crate, named, cell):
        """Each clause in the cell is a label of each function that is named, or of some function of the crate."""
        code = self.crates[crate]
        for clause in WORD.findall(re.sub(r"those of `\w+`", "", cell)):
            if clause in code.definitions:
                continue
            if named:
                if not any(clause in labels for _, functions in named for _, labels in functions):
                    self.miss(place, f"{crate}: {', '.join(name for name, _ in named)} has no clause {clause}")
            elif clause not in code.labels():
                self.miss(place, f"{crate} has no clause {clause}")

    def row_of_calls(self, place, crate, head, clauses, above):
        """A row of calls and their clauses; the calls of which the next row speaks, if it names none."""
        whole = self.functions_named(place, crate, head) if head.strip() else above
        heads, parts = head.split(";"), clauses.split(";")
        for at, part in enumerate(parts):
            named = whole
            if len(heads) == len(parts) and head.strip():
                named = [pair for pair in whole if pair[0] in WORD.findall(heads[at])]
            self.clauses(place, crate, named, part)
        return whole

    def proved(self, text):
        crate, above = None, []
        for number, line in enumerate(text.split("\n"), 1):
            place = f"docs/proof/PROVED.md:{number}"
            heading = re.match(r"## (\w+):", line)
            if heading:
                crate, above = heading.group(1), []
                if crate not in self.crates:
                    self.miss(place, f"no crate {crate}")
                    crate = None
                continue
            cells = [cell.strip() for cell in line.strip().strip("|").split(" | ")]
            if crate and line.startswith("| ") and len(cells) >= 3 and not line.startswith("|---"):
                above = self.row_of_calls(place, crate, cells[0] if cells[0] != "|" else "", cells[1], above)
            if crate:
                self.prose(place, line)

    def readme(self, text):
        for number, line in enumerate(text.split("\n"), 1):
            place = f"README.md:{number}"
            row = re.match(r"\| `(\w+)` \| (.*?) \|(.*?)\|", line)
            if row and row.group(1) in self.crates:
                for part in row.group(3).split(";"):
                    head, _, clauses = re.sub("::", "\0", part).partition(":")
                    self.row_of_calls(place, row.group(1), head.replace("\0", "::"), clauses.replace("\0", "::"), [])
            self.prose(place, line)

    def lines(self, name):
        for number, line in enumerate(read(f"{self.top}/{name}").split("\n"), 1):
            self.prose(f"{name}:{number}", line)

    def prose(self, place, line):
        """Words in backticks that stand nowhere in the code."""
        for name, crate in re.findall(r"`([A-Za-z_]\w*(?:::\w+)*)`(?: \([^)]*\))? of (?:the crate )?`(\w+)`", line):
            if crate in self.crates:
                if name.split("::")[-1] not in self.crates[crate].words | set(self.crates):
                    self.miss(place, f"{crate} has no {name}")
        for name in WORD.findall(line):
            if not self.stands(name.split("::")[-1]):
                self.miss(place, f"nothing is named {name}")
        for name, file in re.findall(r"`([A-Za-z_]\w*)` \((?:of )?`((?:\w+/)*\w+\.(?:antt|rt))`", line):
            if not any(re.search(rf"\b{name}\b", read(path)) for path in self.paths if path.endswith("/" + file)):
                self.miss(place, f"no {file} has {name}")
        for name, crate, files in re.findall(r"`([A-Za-z_]\w*)` \(`(\w+)`, ((?:`\w+\.antt`(?:, )?)+)\)", line):
            texts = [read(f"{self.top}/crates/{crate}/specs/{file}") for file in re.findall(r"`(\w+\.antt)`", files)
                     if os.path.exists(f"{self.top}/crates/{crate}/specs/{file}")]
            if not any(name in DEFINITION.findall(text) for text in texts):
                self.miss(place, f"{crate}, {files} has no definition {name}")
        for file in re.findall(r"`((?:[\w-]+/)*[\w-]+\.(?:antt|rt|py|sh|md|edit))`", line):
            if not any(path.endswith("/" + file) for path in self.paths):
                self.miss(place, f"no file {file}")

    def quoted(self, name):
        """The code that a page quotes whole, beside the file that it names first."""
        text = read(f"{self.top}/{name}")
        code = re.search(r"^```rust\n(.*?)^```$", text, re.M | re.S)
        file = re.search(r"`(crates/[\w/]+\.rt)`", text)
        if not code or not file or code.group(1) != read(f"{self.top}/{file.group(1)}"):
            self.miss(name, f"the code is not that of {file.group(1) if file else 'any file'}")

    def stands(self, name):
        return name in self.words or name in self.crates or name in self.stems or name in BOXES

    def run(self):
        self.words = set().union(*(crate.words for crate in self.crates.values()))
        self.paths = list(paths_of(self.top))
        self.stems = {os.path.basename(path).split(".")[0] for path in self.paths}
        self.proved(read(f"{self.top}/docs/proof/PROVED.md"))
        self.readme(read(f"{self.top}/README.md"))
        for name in PROSE:
            self.lines(name)
        self.quoted("docs/LIBRARY.md")
        for line in dict.fromkeys(self.missing):
            print(line)
        return 1 if self.missing else 0


if __name__ == "__main__":
    sys.exit(Checker(sys.argv[1] if len(sys.argv) > 1 else DEFAULT).run())

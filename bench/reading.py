#!/usr/bin/env python3
"""Lists the definitions that the contract of a function rests on, each behind those that it cites.

    reading.py [--names | --text] [FUNCTION] [--command WORD] [--clause LABEL..] [--below CRATE..]
    reading.py --commands

FUNCTION is a public function's name (default: run, which is the program), or a crate's name, which means all its public
functions: `live_session` is a session with its laws. Printed is a table by crates, with the
definitions of each, their files and lines, then the sums, once more without what nobody need believe
(BETWEEN_CONTRACTS), and apart from them the types and traits of the code. With
--names all of these come first, a line each, in an order in which each stands behind what it cites (but where some cite
each other); with --text they come with their lines. With --below the definitions of these crates are left out, and what
only they cite: `--below mse_engine` shows what a reader meets before the machine. With --clause only the clauses of these
labels are read: `--clause program` shows what the program as a function rests on. With --command the cases of
definitions that match another command, or its task, are left out: `--command play` shows what an author of scripts has
to believe. --commands prints the sums for each command and for a session.

Read are the names in `requires` and `ensures` of the function, and from there on each name that a definition uses: of
its own file, or brought in by `use` (in code `ghost use`). Definitions stand in crates/*/specs. Of the code count the
enums and structs that they name, but for those that contracts see as another value, and the traits whose meanings the
contract names. What comes from the kit does not count, nor do blank lines, comments and `use` lines.
"""
import argparse
import os
import re

TOP = os.path.join(os.path.dirname(os.path.abspath(__file__)), "..")
NAME = re.compile(r"[^\W\d][\w'-]*")
HEAD = re.compile(r"^(?:(?:(?:abbrev|unfoldable|pub|record|data)\s+)+([^\s:({]+)|([^\s:({]+) :)")
USE = re.compile(r"^(?:ghost )?(?:pub )?use Rattle\.([\w.]+?)(?:\.\{(.*?)\})?(?: as (\S+?))?;?$")
# Relations that contracts promise and that others ask for, and that no contract says more of. The two together say the
# same whatever the relation is, so nobody need believe its definition: how what a parser keeps stands for its string.
BETWEEN_CONTRACTS = {("byte_stream", "Stands")}
DECLARED = re.compile(r"^pub (enum|struct|trait) (\w+)")
# Each command of the program, with the patterns of its own in the definitions of mse_commands: the command and its task.
COMMANDS = {
    "ranges": {"Ranges", "ByFile"},
    "pieces": {"Pieces", "ByFile"},
    "make": {"Make", "ByFile"},
    "feed": {"Feed", "ByFile"},
    "remux": {"Remux", "ByRemux"},
    "play": {"Play", "ByScript"},
}
SESSION = "live_session"


def lines_of(path):
    with open(path, encoding="utf-8") as file:
        return file.read().split("\n")


def uses(lines, ghost):
    """The `use` lines, each as (path, names or nothing, other name or nothing), and the other lines with numbers."""
    found, others, held = [], [], ""
    for number, line in enumerate(lines, 1):
        if held:
            held += " " + line.strip()
        elif line.startswith("ghost use " if ghost else "use ") or line.startswith("pub use Rattle"):
            held = line.strip()
        else:
            others.append((number, line))
            continue
        if "{" not in held or "}" in held:
            match = USE.match(held)
            if match:
                names = match.group(2)
                found.append((match.group(1), names and [n.strip() for n in names.split(",")], match.group(3)))
            held = ""
    return found, others


class Definition:
    """A definition: its file, its first line, its name, its lines, and the words that it uses."""

    def __init__(self, file, number, name, lines):
        self.file, self.number, self.name, self.lines = file, number, name, lines
        clauses = []
        for line in lines:
            line = re.sub(r'--.*|"[^"]*"', "", line)
            if line[:1].isspace() and clauses:
                clauses[-1] += "\n" + line
            else:
                clauses.append(line)
        self.code = "\n".join(clauses)
        self.paths = set(re.findall(r"\b([^\W\d][\w']*)\.([^\W\d][\w'-]*)", self.code))
        self.words = set()
        for clause in clauses:
            self.words |= words_of(clause)

    def place(self):
        return f"{os.path.relpath(self.file, TOP)}:{self.number}"


def words_of(clause):
    """The names that a clause uses: neither fields, nor what it binds itself."""
    text = re.sub(r"(?<=[\w')\]])\.[\w'-]+", "", clause)
    head = re.split(r" =\s", text)[0] if not HEAD.match(text) else ""
    bound = set(re.findall(r"[a-z][\w'-]*", head)[1:])
    for names in re.findall(r"λ ([^.]*)\.", text) + re.findall(r"\(([\w' -]+) :", text) + re.findall(r"\blet (\w+)", text):
        bound |= set(NAME.findall(names))
    bound |= set(re.findall(r"(\w+) ←", text))
    text = re.sub(r"(^\s+(?:pub )?|[{;]\s*)\w+ (?:=|:)(?= )", r"\1", text, flags=re.M)
    return (set(re.findall(r"[^\s(){}\[\],;.]+", text)) | set(NAME.findall(text))) - bound


def with_labels(lines, labels):
    """The head of a function, and its clauses that have one of these labels; all, where there is none."""
    found, wanted = [], True
    for line in lines:
        clause = re.match(r"\s+(?:requires|ensures) (\w*)", line)
        if clause:
            wanted = not labels or clause.group(1) in labels
        if wanted:
            found.append(line)
    return found


def without_cases(numbered, foreign):
    """The lines of a file of definitions but for the cases that match one of these patterns."""
    found, left_out = [], False
    for number, line in numbered:
        if line and not line[0].isspace():
            head = line.split(" = ")[0].split(" =")[0]
            left_out = not HEAD.match(line) and bool(set(NAME.findall(head)) & foreign)
        if not left_out:
            found.append((number, line))
    return found


class Scope:
    """What a file calls by which name: words to the definitions that they mean, and short names of other files."""

    def __init__(self, names, files):
        self.names, self.files = names, files


class Reader:
    """All definitions of the repository; of one command alone, where it is named."""

    def __init__(self, command=None):
        own = COMMANDS.get(command, set())
        self.foreign = set().union(*COMMANDS.values()) - own if command else set()
        self.specs, self.scopes, self.code, self.models = {}, {}, {}, set()
        crates = os.path.join(TOP, "crates")
        for crate in sorted(os.listdir(crates)):
            source = os.path.join(crates, crate, "src")
            for folder, _, files in os.walk(source):
                for file in sorted(files):
                    if file.endswith(".rt"):
                        self.read_code(crate, os.path.join(folder, file))

    def read_code(self, crate, path):
        """The types and traits of a file of code."""
        lines = lines_of(path)
        for number, line in enumerate(lines):
            model = re.match(r"impl(?:<.*?>)? Model for (\w+)", line)
            if model:
                self.models.add((crate, model.group(1)))
            match = DECLARED.match(line)
            if not match:
                continue
            end = number
            while not (lines[end].startswith("}") if line.endswith("{") else lines[end].endswith((";", "}"))):
                end += 1
            body = [text for text in lines[number:end + 1] if text.strip() and not text.strip().startswith(("//", "#["))]
            definition = Definition(path, number + 1, match.group(2), body)
            definition.kind = match.group(1)
            self.code[(crate, match.group(2))] = definition

    def spec(self, path):
        """The definitions of a file of specs/, by the names that they bring."""
        if path in self.specs:
            return self.specs[path]
        _, others = uses(lines_of(path), False)
        if self.foreign and os.sep + "mse_commands" + os.sep in path:
            others = without_cases(others, self.foreign)
        blocks = []
        for number, line in others:
            if not line.strip() or line.startswith("--"):
                continue
            if line[0].isspace():
                if not line.strip().startswith("--"):
                    blocks[-1][2].append(line)
                continue
            head = HEAD.match(line)
            if head:
                blocks.append((number, head.group(1) or head.group(2), [line]))
            elif not line.startswith(("mod ", "pub mod ", "infix")):
                blocks[-1][2].append(line)
        brought = {}
        for number, name, lines in blocks:
            definition = Definition(path, number, name, lines)
            brought[name] = definition
            if re.match(r"(?:pub )?data\b", lines[0]):
                for line in lines[1:]:
                    variant = re.match(r"\s+([^\s:]+)\s*:", line)
                    if variant:
                        brought[variant.group(1)] = definition
        self.specs[path] = brought
        return brought

    def find(self, path):
        """What a path of a `use` names: the definitions of a file, or the type of code with its variants."""
        parts = path.split(".")
        if parts[0] == "std" or not os.path.isdir(os.path.join(TOP, "crates", parts[0])):
            return None
        if "declared" in parts:
            at = parts.index("declared")
            rest = [part for part in parts[at + 1:] if part != "TheVariants"]
            definition = self.code.get((parts[0], rest[-1]))
            return {} if definition is None else definition
        file = os.path.join(TOP, "crates", *parts) + ".antt"
        return self.spec(file) if os.path.exists(file) else None

    def scope(self, path, ghost):
        if path in self.scopes:
            return self.scopes[path]
        found, _ = uses(lines_of(path), ghost)
        names, files = {}, {}
        for target, words, other in found:
            what = self.find(target)
            if what is None or what == {}:
                continue
            if words is None:
                files[other or target.split(".")[-1]] = what
                continue
            for word in words:
                word, _, called = word.partition(" as ")
                definition = what.get(word) if isinstance(what, dict) else what
                if definition is not None:
                    names[called or word] = definition
        self.scopes[path] = Scope(names, files)
        return self.scopes[path]

    def cited(self, definition):
        """The definitions that one uses."""
        path, found = definition.file, []
        if path.endswith(".rt"):
            return self.cited_in_code(definition)
        scope, own = self.scope(path, False), self.spec(path)
        for word in sorted(definition.words):
            for called in (word, f"◌{word}◌"):
                if called in own and called not in scope.names:
                    found.append(own[called])
                elif called in scope.names:
                    found.append(scope.names[called])
        if re.search(r"\bdo\b", definition.code) and "◌>>=◌" in scope.names:
            found.append(scope.names["◌>>=◌"])
        found += self.by_path(definition, scope)
        return [one for one in found if one is not definition]

    @staticmethod
    def by_path(definition, scope):
        found = []
        for first, second in sorted(definition.paths):
            what = scope.files.get(first)
            if isinstance(what, dict) and second in what:
                found.append(what[second])
            elif isinstance(what, Definition):
                found.append(what)
        return found

    def cited_in_code(self, definition):
        """Of a type the types of its fields; of a trait what its contracts name."""
        crate = os.path.relpath(definition.file, os.path.join(TOP, "crates")).split(os.sep)[0]
        text = "\n".join(lines_of(definition.file))
        from_crates = {}
        for match in re.finditer(r"^use (\w+)::(?:\w+::)*\{?([^;]*?)\}?;", text, re.M | re.S):
            for word in re.findall(r"\w+", match.group(2)):
                from_crates[word] = crate if match.group(1) == "crate" else match.group(1)
        found = []
        for word in sorted(definition.words):
            key = (from_crates.get(word, crate), word)
            if key in self.code and key not in self.models and self.code[key].kind != "trait":
                found.append(self.code[key])
        if definition.kind == "trait":
            scope = self.scope(definition.file, True)
            found += [scope.names[word] for word in sorted(definition.words) if word in scope.names]
            found += self.by_path(definition, scope)
        return [one for one in found if one is not definition]

    def contract(self, function, labels):
        """How many lines the clauses of a function have (those of some labels, if any), or those of all public functions
        of a crate, and the definitions that they name."""
        count, roots = 0, []
        for crate, files in self.folders():
            for file in files:
                lines = lines_of(file)
                for number, line in enumerate(lines):
                    head = re.match(r"(\s*)pub fn (\w+)", line)
                    if head and (crate == function or not head.group(1) and head.group(2) == function):
                        ends = (head.group(1) + "{", head.group(1) + "{}")
                        end = next(at for at in range(number, len(lines)) if lines[at].rstrip() in ends)
                        definition, named = self.clauses(crate, file, number, function, with_labels(lines[number:end], labels))
                        count, roots = count + len(definition.lines), roots + named
        if not count:
            raise SystemExit(f"no public function or crate {function}")
        return count, roots

    def folders(self):
        crates = os.path.join(TOP, "crates")
        for crate in sorted(os.listdir(crates)):
            files = []
            for folder, _, names in os.walk(os.path.join(crates, crate, "src")):
                files += [os.path.join(folder, name) for name in sorted(names) if name.endswith(".rt")]
            yield crate, files

    def clauses(self, crate, file, number, function, lines):
        definition = Definition(file, number + 1, function, lines)
        scope = self.scope(file, True)
        roots = [scope.names[word] for word in NAME.findall(definition.code) if word in scope.names]
        roots += self.by_path(definition, scope)
        for trait in re.findall(r"(?:: |dyn )(\w+)", definition.code):
            for (_, name), code in self.code.items():
                if name == trait and code.kind == "trait":
                    members = re.findall(r"ghost (?:fn |let )?(\w+)", code.code)
                    if any(re.search(rf"\b{member}\b", definition.code) for member in members):
                        roots.append(code)
        return definition, roots


def in_order(reader, roots, below, without=frozenset()):
    """Each definition behind those that it cites, but for those of some crates and some by their names."""
    done, order = set(), []

    def is_left_out(one):
        return crate_of(one) in below or (crate_of(one), one.name) in without

    def visit(definition):
        stack = [(definition, None)]
        while stack:
            here, cited = stack.pop()
            if cited is None:
                if here in done or is_left_out(here):
                    continue
                done.add(here)
                cited = iter(reader.cited(here))
            for one in cited:
                if one not in done and not is_left_out(one):
                    stack.append((here, cited))
                    stack.append((one, None))
                    break
            else:
                order.append(here)

    for root in roots:
        visit(root)
    return order


def crate_of(definition):
    return os.path.relpath(definition.file, os.path.join(TOP, "crates")).split(os.sep)[0]


def main():
    parser = argparse.ArgumentParser(description=__doc__.split("\n")[0])
    parser.add_argument("function", nargs="?", default="run")
    parser.add_argument("--names", action="store_true")
    parser.add_argument("--text", action="store_true")
    parser.add_argument("--clause", nargs="*", default=[])
    parser.add_argument("--below", nargs="*", default=[])
    parser.add_argument("--command", choices=list(COMMANDS))
    parser.add_argument("--commands", action="store_true")
    options = parser.parse_args()
    if options.commands:
        print_commands()
        return
    reader = Reader(options.command)
    contract, roots = reader.contract(options.function, options.clause)
    order = in_order(reader, roots, set(options.below))
    if options.names or options.text:
        for definition in order:
            print(f"{definition.place()} {definition.name}")
            if options.text:
                print("\n".join(definition.lines) + "\n")
    crates, types = {}, [one for one in order if one.file.endswith(".rt")]
    for definition in order:
        if definition not in types:
            crates.setdefault(crate_of(definition), []).append(definition)
    for crate, ones in crates.items():
        print_row(crate, ones, "definitions")
    print_row("all", [one for ones in crates.values() for one in ones], "definitions")
    needed = in_order(reader, roots, set(options.below), BETWEEN_CONTRACTS)
    print_row("to be believed", [one for one in needed if one not in types], "definitions")
    print_row("of code", types, "types, traits")
    print(f"The contract of {options.function} has {contract} lines.")


def print_commands():
    """What has to be believed of the program, of each command of it, and of a session."""
    wanted = [("run", "run", None)]
    wanted += [(command, "run", command) for command in COMMANDS]
    wanted += [("a session", SESSION, None)]
    print("                 definitions   lines  types and traits")
    for title, function, command in wanted:
        reader = Reader(command)
        _, roots = reader.contract(function, [])
        order = in_order(reader, roots, set(), BETWEEN_CONTRACTS)
        types = [one for one in order if one.file.endswith(".rt")]
        lines = sum(len(one.lines) for one in order if one not in types)
        print(f"{title:16} {len(order) - len(types):11} {lines:7} {len(types):17}")


def print_row(name, ones, kind):
    files, lines = len({one.file for one in ones}), sum(len(one.lines) for one in ones)
    print(f"{name:16} {len(ones):5} {kind:13} {files:4} files {lines:6} lines")


if __name__ == "__main__":
    main()

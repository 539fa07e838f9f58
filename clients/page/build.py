#!/usr/bin/env python3
"""Makes ../mseplay.html of the sources in this folder: one page that loads nothing.

    ./build.py            writes it
    ./build.py --check    says whether it is that of the sources; the status is 1 where it is not

Each module becomes a function that gives what it exports; they stand in order, those that are imported first. The
engine's module stands in the page in base 64, and the text of its worker as a text.
"""

import base64
import re
import sys
from pathlib import Path

HERE = Path(__file__).resolve().parent
REPOSITORY = HERE.parent.parent
PAGE = HERE.parent / "mseplay.html"
DATA = REPOSITORY / "crates/case_runs/data"

IMPORT = re.compile(r"""^import \{([^}]*)\} from ["']([^"']+)["'];?\n""", re.M)
WHOLE = re.compile(r"""^import \* as (\w+) from ["']([^"']+)["'];?\n""", re.M)
EXPORTED = re.compile(r"^export (?:async )?(?:function\*? |class |const )([\w$]+)", re.M)
LISTED = re.compile(r"""^export \{([^}]*)\}(?: from ["']([^"']+)["'])?;?\n""", re.M)
LEFT = re.compile(r"^(?:import|export)\b.*", re.M)

# The files that the examples of the page need.
EXAMPLES = ["plain.mp4", "gap.mp4", "groups.mp4", "classic.mp4", "audio.mp4"]


class Refused(Exception):
    """A module has what this script does not take."""


def names_of(text):
    """What stands between braces: pairs of the name there and the name here."""
    for part in filter(None, (part.strip() for part in text.split(","))):
        theirs, _, ours = part.partition(" as ")
        yield theirs.strip(), (ours or theirs).strip()


class Bundle:
    """Modules, each as a function, in the order in which they can be called."""

    def __init__(self):
        self.places = {}
        self.open = []
        self.parts = []

    def add(self, path):
        path = path.resolve()
        if path in self.open:
            cycle = " > ".join(one.name for one in [*self.open, path])
            raise Refused(f"modules import each other in a ring: {cycle}")
        if path not in self.places:
            self.open.append(path)
            text = self.of_module(path)
            self.open.pop()
            self.places[path] = f"module{len(self.places)}"
            self.parts.append(f"const {self.places[path]} = (() => {{\n{text}}})();\n")
        return self.places[path]

    def of_module(self, path):
        text = path.read_text()
        exports = {name: name for name in EXPORTED.findall(text)}

        def imported(found):
            names = ", ".join(theirs if theirs == ours else f"{theirs}: {ours}" for theirs, ours in names_of(found[1]))
            return f"const {{ {names} }} = {self.add(path.parent / found[2])};\n"

        def listed(found):
            home = f"{self.add(path.parent / found[2])}." if found[2] else ""
            exports.update((ours, home + theirs) for theirs, ours in names_of(found[1]))
            return ""

        text = IMPORT.sub(imported, text)
        text = WHOLE.sub(lambda found: f"const {found[1]} = {self.add(path.parent / found[2])};\n", text)
        text = LISTED.sub(listed, text)
        text = re.sub(r"^export (?=(?:async )?(?:function|class|const) ?)", "", text, flags=re.M)
        text = text.replace("import.meta.url", '""')
        left = LEFT.search(text)
        if left:
            raise Refused(f"{path}: {left[0]}")
        told = ", ".join(name if name == value else f"{name}: {value}" for name, value in exports.items())
        return f"{text}return {{ {told} }};\n"

    def text(self):
        return "\n".join(self.parts)


def in_a_script(text):
    """A text as it may stand in a `script`: nothing in it ends the element."""
    return re.sub(r"<(?=/script|!--|script)", r"\\x3c", text, flags=re.I)


def program(path):
    bundle = Bundle()
    bundle.add(path)
    return in_a_script('"use strict";\n' + bundle.text())


def base64_of(path):
    return base64.b64encode(path.read_bytes()).decode()


def built():
    page = (HERE / "index.html").read_text()
    examples = "".join(f'<script type="text/plain" class="example" data-name="{name}">{base64_of(DATA / name)}</script>\n' for name in EXAMPLES)
    parts = {
        "/* style */": (HERE / "style.css").read_text(),
        "<!-- examples -->\n": examples,
        "<!-- engine -->": base64_of(REPOSITORY / "js/mseplay.wasm"),
        "/* worker */": program(HERE / "src/worker.mjs"),
        "/* program */": program(HERE / "src/main.mjs"),
    }
    for mark, text in parts.items():
        if page.count(mark) != 1:
            raise Refused(f"index.html has {page.count(mark)} of {mark.strip()}")
        page = page.replace(mark, text)
    return page


def main(words):
    text = built()
    if words == ["--check"]:
        is_fresh = PAGE.is_file() and PAGE.read_text() == text
        print(f"{PAGE.name} is {'that of its sources' if is_fresh else 'stale: run clients/page/build.py'}")
        return 0 if is_fresh else 1
    PAGE.write_text(text)
    print(f"{PAGE.name}: {len(text.encode()):,} bytes")
    return 0


if __name__ == "__main__":
    sys.exit(main(sys.argv[1:]))

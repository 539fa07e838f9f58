"""Live sessions of the engine for replay.py: by node over ../js, or by the static library of c/ without node."""
import atexit
import json
import shutil
import subprocess
import sys
from dataclasses import dataclass
from pathlib import Path

CLIENTS = Path(__file__).resolve().parent
OLDEST_NODE = 18


class NoEngine(Exception):
    """There is no live session here; the text says what is missing."""


@dataclass
class Look:
    """What is read of a source buffer."""
    updating: bool
    active: bool
    used: int
    ranges: list


def spans(ranges):
    return [(int(each["start"]), int(each["end"])) for each in ranges]


class Node:
    """One process of node, in which sessions live. Each question and each answer is a JSON text of one line."""

    def __init__(self):
        path = shutil.which("node")
        if not path:
            raise NoEngine("no node here: it is in the Debian package nodejs")
        version = subprocess.run([path, "--version"], capture_output=True, text=True).stdout.strip()
        if int(version.lstrip("v").split(".")[0] or 0) < OLDEST_NODE:
            raise NoEngine(f"node {version} is older than {OLDEST_NODE}")
        self.process = subprocess.Popen([path, str(CLIENTS / "session.mjs")], stdin=subprocess.PIPE,
                                        stdout=subprocess.PIPE)
        atexit.register(self.close)

    def ask(self, **question):
        self.process.stdin.write(json.dumps(question).encode() + b"\n")
        self.process.stdin.flush()
        answer = json.loads(self.process.stdout.readline() or '{"problem": "node has ended"}')
        if "problem" in answer:
            raise NoEngine(answer["problem"])
        return answer

    def open(self, blobs, keys):
        return NodeSession(self, blobs, keys)

    def close(self):
        self.process.stdin.close()
        self.process.stdout.close()
        self.process.wait()


class NodeSession:
    def __init__(self, node, blobs, keys):
        self.node = node
        files = [{"hex": blob.hex()} if isinstance(blob, bytes) else {"path": str(blob)} for blob in blobs]
        self.number = node.ask(do="open", files=files, keys=keys)["session"]
        self.next = None

    def step(self, line):
        """The lines that a step prints, and the name by which its call was refused."""
        answer = self.node.ask(do="step", session=self.number, line=line)
        self.next = answer["next"]
        return answer["lines"], answer["refused"]

    def buffer(self, number):
        look = self.node.ask(do="look", session=self.number, number=number)["buffer"]
        return look and Look(look["updating"], look["active"], look["used"], spans(look["ranges"]))

    def ranges(self):
        """What the element has buffered."""
        return spans(self.node.ask(do="element", session=self.number)["ranges"])

    def close(self):
        self.node.ask(do="close", session=self.number)


class LibrarySession:
    def __init__(self, mseplay, blobs, keys):
        self.mseplay = mseplay
        self.session = mseplay.Session(**keys)
        for blob in blobs:
            self.session.give(blob if isinstance(blob, bytes) else Path(blob).read_bytes())
        self.next = None

    def step(self, line):
        lines, refused = self.session.step(line)
        self.next = self.session.next()
        return lines, refused

    def buffer(self, number):
        try:
            look = self.session.buffer(number)
        except self.mseplay.NoSuchBuffer:
            return None
        return Look(look.updating, look.active, look.used, look.buffered)

    def ranges(self):
        return self.session.attributes().buffered

    def close(self):
        self.session.close()


class Library:
    def __init__(self):
        sys.path.insert(0, str(CLIENTS / "c"))
        import mseplay
        try:
            mseplay.archive()
            mseplay.compiler()
        except FileNotFoundError as error:
            raise NoEngine(str(error)) from error
        self.mseplay = mseplay

    def open(self, blobs, keys):
        return LibrarySession(self.mseplay, blobs, keys)


found = None


def engine():
    """What opens sessions here."""
    global found
    problems = []
    for kind in (Node, Library):
        if found:
            break
        try:
            found = kind()
        except NoEngine as problem:
            problems.append(str(problem))
    if not found:
        raise NoEngine("; ".join(problems))
    return found

#!/usr/bin/env python3
"""Plays a script and lays what mseplay prints beside what a browser did.

    compare.py SCRIPT BROWSER     a script, and the browser's lines: recording.toml and browser.txt of record.js,
                                  or a script and what play.html says of it
    compare.py ARCHIVE            recording.zip of record.js, which has both

A recording is replayed first, by replay.py: what is played is the script that comes to where the browser was before
each call. Files that a script names are looked for in the folder that this is called in, as the program does, and then
beside the script; it is said which were taken.

The program's path is that of the environment variable MSEPLAY, else crates/mseplay/out/mseplay, else that of
bench/unproved.py, mseplay-unproved at the top.

Compared are the calls in their order, their answers, the events of each target in their order, and what is there in the
end; times to 3 microseconds. Where an event of one target comes before or behind one of another is shown and not
compared, and neither are the lines that no browser tells: phases, bytes, tracks, faults.

Each difference is told with its row in docs/BROWSERS.md, or apart, where no row tells of it.

Status 0: no difference but those that a row tells of; 1: another one; 2: nothing was compared.
"""
import difflib
import os
import re
import sys
import tempfile
import textwrap
import zipfile
from dataclasses import dataclass, field
from pathlib import Path

sys.dont_write_bytecode = True
sys.path.insert(0, str(Path(__file__).resolve().parent))

import known  # noqa: E402
import live  # noqa: E402
import replay  # noqa: E402
import scripts  # noqa: E402

NotCompared = scripts.NotPlayed
ANSWER = r"(done|refused \w+|ranges .*|range .*|source .*)"
STATE = ("source", "duration", "level", "position", "paused", "seeking", "error")


# Lines.


def number(word):
    return int(word) if re.fullmatch(r"-?\d+", word) else word


def read_ranges(text):
    return [(int(first), int(last)) for first, last in re.findall(r"\[(-?\d+),(-?\d+)[)\]]", text)]


def read_answer(text):
    """What an answer says, by name."""
    if text.startswith("ranges "):
        return {"ranges": read_ranges(text)}
    if text.startswith("range "):
        return {"range": read_ranges(text)}
    if text.startswith("source "):
        words = text.split()
        return {name: number(words[words.index(name) + 1]) for name in STATE}
    return {"answer": text}


@dataclass
class Line:
    """A line of either side: its group and key say which line of the other side may be its partner."""
    text: str
    index: int
    kind: str
    group: str = ""
    key: str = ""
    target: str = ""
    type: str = ""
    words: list = field(default_factory=list)
    fields: dict = field(default_factory=dict)

    @property
    def type_text(self):
        """The type text of `add` and `changetype`."""
        text = " ".join(self.words)
        return text.partition(" ")[2] if self.words[0] == "add" else " ".join(text.split(" ")[2:])


def read_line(text, index):
    if found := re.fullmatch(rf"(call|listener \d+) (.*): {ANSWER}", text):
        who, call, answer = found.groups()
        return Line(text, index, who.split()[0], who, call, words=call.split(" "), fields=read_answer(answer))
    if found := re.fullmatch(r"event (\w+|buffer \d+) (\w+)", text):
        target, kind = found.groups()
        return Line(text, index, "event", f"event {target}", kind, target=target, type=kind)
    if text.startswith("state "):
        return Line(text, index, "state", "closing", "state", fields=read_answer(text[6:]))
    if found := re.fullmatch(r"duration (\S+)", text):
        return Line(text, index, "duration", "closing", "duration", fields={"duration": number(found[1])})
    if found := re.fullmatch(r"(buffer \d+) (?:.* )?buffered (.*)", text):
        return Line(text, index, "buffer", "closing", found[1], fields={"ranges": read_ranges(found[2])})
    # track and fault lines are of the program alone, and a comment is of the browser alone
    return Line(text, index, text.split(" ")[0])


def read_lines(text):
    return [read_line(line, index) for index, line in enumerate(text.splitlines())]


def is_same(name, one, other):
    if name in ("ranges", "range"):
        return known.fits(one, other, lambda a, b: known.near(a[0], b[0]) and known.near(a[1], b[1]))
    return known.near(one, other) if name in ("duration", "position") else one == other


# Pairs and differences.


@dataclass
class Difference:
    program: Line | None
    browser: Line | None
    field: str | None = None
    row: str | None = None
    # the difference stands for an append that one side took and the other did not
    is_of_fault: bool = False
    is_of_refusal: bool = False
    is_of_element_error: bool = False


# Events of the element that come when they like: they never say which other lines are partners.
LOOSE = ("timeupdate", "waiting", "playing", "durationchange")


def is_loose(line):
    return line.target == "element" and line.type in LOOSE


def paired(program, browser):
    """The partners of lines, and the lines without one. Partners have one group and one key, and come in one order.
    Loose lines have partners between those of the others."""
    pairs, lone_ours, lone_theirs = {}, [], []
    for group in dict.fromkeys(line.group for line in [*program, *browser] if line.group):
        ours = [line for line in program if line.group == group]
        theirs = [line for line in browser if line.group == group]
        found = partners([line for line in ours if not is_loose(line)], [line for line in theirs if not is_loose(line)])
        found += loose_partners(ours, theirs, found)
        pairs.update({one.index: other for one, other in found})
        done = {one.index for one, _ in found}, {other.index for _, other in found}
        lone_ours += [line for line in ours if line.index not in done[0]]
        lone_theirs += [line for line in theirs if line.index not in done[1]]
    return pairs, lone_ours, lone_theirs


def partners(ours, theirs):
    return [(ours[i], theirs[j]) for i, j in common([line.key for line in ours], [line.key for line in theirs])]


def loose_partners(ours, theirs, found):
    """The partners of the loose lines, in each space between two lines that have partners."""
    bounds = [(-1, -1), *[(one.index, other.index) for one, other in found], (sys.maxsize, sys.maxsize)]
    pairs = []
    for (first, other_first), (last, other_last) in zip(bounds, bounds[1:]):
        within = [line for line in ours if first < line.index < last and is_loose(line)]
        beside = [line for line in theirs if other_first < line.index < other_last and is_loose(line)]
        pairs += partners(within, beside) if within and beside else []
    return pairs


def common(ours, theirs):
    """The places of a longest list of keys that both have in this order. Very long lists, which would take a minute,
    are left to difflib, whose list may be a little shorter."""
    front = 0
    while front < min(len(ours), len(theirs)) and ours[front] == theirs[front]:
        front += 1
    places = [(i, i) for i in range(front)]
    ours, theirs = ours[front:], theirs[front:]
    if len(ours) * len(theirs) > 10_000_000:
        blocks = difflib.SequenceMatcher(None, ours, theirs, autojunk=False).get_matching_blocks()
        return places + [(front + a + k, front + b + k) for a, b, size in blocks for k in range(size)]
    # lengths[i][j]: how long the longest list of what stands from i and from j on is
    lengths = [[0] * (len(theirs) + 1) for _ in range(len(ours) + 1)]
    for i in reversed(range(len(ours))):
        for j in reversed(range(len(theirs))):
            lengths[i][j] = (lengths[i + 1][j + 1] + 1 if ours[i] == theirs[j]
                             else max(lengths[i + 1][j], lengths[i][j + 1]))
    i = j = 0
    while i < len(ours) and j < len(theirs):
        if ours[i] == theirs[j]:
            places.append((front + i, front + j))
            i, j = i + 1, j + 1
        elif lengths[i + 1][j] >= lengths[i][j + 1]:
            i += 1
        else:
            j += 1
    return places


def out_of_order(lone_ours, lone_theirs):
    """Takes from both lists the lines that are on both sides, at another place among those of their target."""
    found = []
    for line in list(lone_ours):
        partner = next((one for one in lone_theirs if (one.group, one.key) == (line.group, line.key)), None)
        if partner:
            lone_ours.remove(line)
            lone_theirs.remove(partner)
            found.append(Difference(line, partner, "order"))
    return found


def differences(program, browser, pairs, lone_ours, lone_theirs):
    found = out_of_order(lone_ours, lone_theirs)
    found += [Difference(line, None) for line in lone_ours] + [Difference(None, line) for line in lone_theirs]
    for line in program:
        partner = pairs.get(line.index)
        if partner is None:
            continue
        if line.fields.keys() != partner.fields.keys():
            whole = {"answer": line.fields.get("answer", "")}, {"answer": partner.fields.get("answer", "")}
            found.append(Difference(as_answer(line, whole[0]), as_answer(partner, whole[1]), "answer"))
            continue
        found += [Difference(line, partner, name) for name, value in line.fields.items()
                  if not is_same(name, value, partner.fields[name])]
    return sorted(found, key=lambda one: (one.program or one.browser).index)


def as_answer(line, fields):
    return Line(line.text, line.index, line.kind, line.group, line.key, line.target, line.type, line.words, fields)


# A run: both texts, and what the rows need to know of the script.


class Run:
    def __init__(self, script, program_text, browser_text):
        read = script if isinstance(script, scripts.Script) else scripts.read(script)
        self.script = read.values
        self.program, self.browser = read_lines(program_text), read_lines(browser_text)
        if replay.is_recording(read.text) and not any(line.kind == "state" for line in self.browser):
            # what was there before a page lost its source may not be known
            self.program = [line for line in self.program if line.group != "closing"]
        self.blobs = read.blobs()
        told = re.search(r"^fault \d+ (.*) buffer \d+ at \d+$", program_text, re.M)
        self.fault = told[1] if told else None
        self.notes = [line.text[2:] for line in self.browser if line.kind == "#"]
        self.name = browser_name(self.notes, read.text)

    @staticmethod
    def has(lines, target, *types):
        return any(line.kind == "event" and line.target.split()[0] == target and line.type in types for line in lines)

    def calls_of_program(self):
        return [line for line in self.program if line.kind in ("call", "listener")]

    def times_of(self, name):
        """The times that calls of this name were given."""
        words = [call.words[-1] for call in self.calls_of_program() if call.words[0] == name]
        return [int(word) for word in words if re.fullmatch(r"-?\d+", word)]

    def steps(self):
        return self.script.get("steps", [])

    def tracks(self):
        return [line.text.split() for line in self.program if line.kind == "track"]

    def has_no_track(self):
        return not self.tracks()

    def has_two_videos(self):
        videos = [words[1] for words in self.tracks() if words[3] == "video"]
        return len(videos) > len(set(videos))

    def has_other_codec(self):
        """A track whose codec is not among those of the types that were added."""
        named = [set(re.findall(r'[=" ,](\w{4})[.",]', call.type_text.lower() + ",")) for call in self.calls_of_program()
                 if call.words[0] in ("add", "changetype") and "codecs=" in call.type_text]
        codecs = set().union(*named)
        return bool(codecs) and any(words[4].lower() not in codecs for words in self.tracks())

    def lacks_configuration(self):
        return any(known.lacks_configuration(blob) for blob in self.blobs)

    def has_empty_edit(self):
        return any(known.has_empty_edit(blob) for blob in self.blobs)

    def begins_within_media(self):
        return any(known.begins_within_media(blob) for blob in self.blobs)

    def has_base_offset(self):
        return any(known.has_base_offset(blob) for blob in self.blobs)

    def has_loose_fragments(self):
        return any(known.has_loose_fragments(blob) for blob in self.blobs)


def browser_name(notes, script_text):
    text = "\n".join([*notes, script_text])
    if "Firefox/" in text:
        return "Firefox"
    return "Chromium" if "Chrome/" in text else "another browser"


# What all that follows depends on: an append that only one side took, an error that only the browser has, a type that
# only one side took. Behind it nothing is compared but types.


def mark_turning_points(run, found):
    for one in found:
        line = one.program or one.browser
        if one.field is None and line.kind == "event" and line.target.startswith("buffer") and line.type == "error":
            one.is_of_fault, one.is_of_refusal = one.browser is None, one.program is None
        if one.field is None and line.kind == "event" and line.target == "element" and line.type == "error":
            one.is_of_element_error = one.program is None
    # where both have the error of a fault, they differ in how far the append came
    if run.fault and not any(one.is_of_fault for one in found):
        for one in found:
            one.is_of_fault = True


def front_of(run, difference):
    """The first lines, in the program and in the browser, that depend on a difference: those behind the updatestart of
    its append, or behind the call."""
    if difference.field == "answer":
        return difference.program.index + 1, difference.browser.index + 1
    line = difference.program or difference.browser
    lines = run.program if difference.program else run.browser
    if line.target.startswith("buffer"):
        nth = sum(1 for one in lines[:line.index] if one.target == line.target and one.type == "updatestart")
        return tuple(place_of(side, line.target, nth) for side in (run.program, run.browser))
    nth = sum(1 for one in lines[:line.index] if one.type == "updatestart")
    return tuple(place_of(side, "buffer", nth) for side in (run.program, run.browser))


def place_of(lines, target, nth):
    """Where the nth updatestart is fired at a buffer, or at any."""
    places = [line.index for line in lines if line.target.startswith(target) and line.type == "updatestart"]
    return places[nth - 1] if 0 < nth <= len(places) else 0


NO_DRAIN = "no row: the script ends without `drain`, so the program fires no more events"


def name_rows(run, found):
    """Gives each difference the row that tells of it."""
    entries = [entry for entry in known.KNOWN if run.name in entry.browsers]
    ends = []
    for one in found:
        entry = next((entry for entry in entries if entry.test(one, run)), None)
        if entry:
            one.row = entry.row
            if entry.ends:
                ends.append((front_of(run, one), entry.row))
        elif is_not_drained(one, run):
            one.row = NO_DRAIN
    for one in found:
        if one.row is None and not is_of_type(one):
            one.row = next((f"{row} (it follows)" for front, row in ends if is_behind(one, front)), None)


def is_not_drained(difference, run):
    """An event of the browser alone, where the script has no `drain` behind its last calls."""
    steps = run.steps()
    drained = max((i for i, step in enumerate(steps) if step == "drain"), default=-1)
    calls = sum(1 for step in steps[:drained + 1] if step.split(" ")[0] not in ("drain", "fire", "work", "element"))
    places = [line.index for line in run.browser if line.kind == "call"]
    if difference.program is not None or difference.browser.kind != "event" or calls >= len(places):
        return False
    return difference.browser.index > places[calls]


def is_of_type(difference):
    line = difference.program or difference.browser
    return line.kind in ("call", "listener") and line.words[0] in ("add", "changetype")


def is_behind(difference, front):
    ours, theirs = difference.program, difference.browser
    return (ours is not None and ours.index >= front[0]) or (theirs is not None and theirs.index >= front[1])


def compared(script, program_text, browser_text):
    """The run, its pairs and its differences, each with its row."""
    run = Run(script, program_text, browser_text)
    pairs, ours, theirs = paired(run.program, run.browser)
    found = differences(run.program, run.browser, pairs, ours, theirs)
    mark_turning_points(run, found)
    name_rows(run, found)
    return run, pairs, found


# What is printed.


def side_by_side(run, pairs, marks):
    """Rows of both texts: the program's lines in order, each with its partner, and the browser's lone lines between."""
    partner_of = {partner.index: index for index, partner in pairs.items()}
    waiting = [line for line in run.browser if line.kind != "#" and line.index not in partner_of]
    farthest = -1
    for line in run.program:
        partner = pairs.get(line.index)
        if partner:
            while waiting and waiting[0].index < partner.index:
                yield "", waiting[0].text, marks.get(("browser", waiting[0].index), " ")
                waiting.pop(0)
        mark = marks.get(("program", line.index), " ")
        if partner and mark == " " and partner.index < farthest:
            mark = "^"
        farthest = max(farthest, partner.index if partner else -1)
        yield line.text, partner.text if partner else "", mark
    for line in waiting:
        yield "", line.text, marks.get(("browser", line.index), " ")


def marks_of(found, letters):
    marks = {}
    for one in found:
        mark = letters[base_row(one.row)] if one.row else "!"
        for side, line in (("program", one.program), ("browser", one.browser)):
            if line and marks.get((side, line.index)) != "!":
                marks[side, line.index] = mark
    return marks


def base_row(row):
    return row.removesuffix(" (it follows)")


def cells(text, width):
    return textwrap.wrap(text, width, subsequent_indent="    ") or [""]


def print_table(rows, width):
    print(f"{'mseplay':{width}}   browser")
    for ours, theirs, mark in rows:
        left, right = cells(ours, width), cells(theirs, width)
        for i in range(max(len(left), len(right))):
            one = left[i] if i < len(left) else ""
            other = right[i] if i < len(right) else ""
            print(f"{one:{width}} {mark if i == 0 else ' '} {other}".rstrip())


def told(difference):
    """A difference in one line."""
    if difference.field == "order":
        return f"at another place among the lines of its target: {difference.program.text}"
    if difference.field is None:
        who, line = ("mseplay", difference.program) if difference.program else ("browser", difference.browser)
        return f"only {who}: {line.text}"
    return f"{difference.field}: mseplay {difference.program.text} | browser {difference.browser.text}"


def report(run, pairs, found, width=None):
    named = list(dict.fromkeys(base_row(one.row) for one in found if one.row))
    letters = {row: "abcdefghijklmnopqrstuvwxyz"[i % 26] for i, row in enumerate(named)}
    rows = list(side_by_side(run, pairs, marks_of(found, letters)))
    if width is None:
        columns = os.get_terminal_size().columns if sys.stdout.isatty() else 160
        width = max(40, (columns - 3) // 2)
    for note in run.notes:
        print(f"# {note}")
    print_table(rows, width)
    moved = sum(1 for _, _, mark in rows if mark == "^")
    if moved:
        print(f"\n^ {moved} lines that come at another place among lines of other targets, which is not compared")
    for row in named:
        count = sum(1 for one in found if one.row and base_row(one.row) == row)
        where = row if row == NO_DRAIN else f'docs/BROWSERS.md, "{row}"'
        print(f"\n{letters[row]} {where}: {count} difference{'s' if count > 1 else ''}")
    lone = [one for one in found if not one.row]
    for one in lone:
        print(f"\n! no row of docs/BROWSERS.md tells of this\n  {told(one)}")
    print(f"\n{len(found) - len(lone)} differences that a row tells of, {len(lone)} that none does")
    return 1 if lone else 0


# Scripts and recordings.


def printed(script):
    """What the program prints of a script."""
    return scripts.printed(scripts.read(script))


def compare(script, browser_text, width=None):
    read = scripts.read(script)
    for sentence in read.took:
        print(f"# {sentence}")
    if replay.is_recording(read.text):
        return compare_recording(read, browser_text, width)
    return report(*compared(script, scripts.printed(read), browser_text), width)


def compare_recording(read, browser_text, width=None):
    return report(*compared_recording(read, browser_text), width)


def compared_recording(read, browser_text):
    """A recording is replayed, and what the program prints of that script is compared."""
    try:
        done = replay.replayed(read.text, browser_text, read.files.__getitem__)
    except live.NoEngine as problem:
        raise NotCompared(f"a recording is replayed by a live session, and none is here: {problem}") from problem
    script = scripts.of_text(done.script, read.files)
    return compared(script, scripts.printed(script), done.browser)


def compare_archive(path):
    with tempfile.TemporaryDirectory() as folder:
        try:
            with zipfile.ZipFile(path) as archive:
                archive.extractall(folder)
            told = Path(folder, "browser.txt").read_text(encoding="utf-8")
        except (OSError, zipfile.BadZipFile) as error:
            raise NotCompared(f"{path} is no archive of record.js: {error}") from error
        return compare_recording(scripts.read(Path(folder, "recording.toml"), folder), told)


def main(words):
    if words and all(not word.startswith("-") for word in words) and len(words) <= 2:
        if len(words) == 1:
            return compare_archive(words[0])
        browser = Path(words[1])
        if not browser.is_file():
            raise NotCompared(f"no file {browser}")
        return compare(words[0], browser.read_text(encoding="utf-8"))
    raise NotCompared(__doc__.strip())


if __name__ == "__main__":
    try:
        sys.exit(main(sys.argv[1:]))
    except NotCompared as problem:
        print(problem, file=sys.stderr)
        sys.exit(2)

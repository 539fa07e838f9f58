"""Reads what `mseplay` printed, for the tests of mseplay.html: by itself, and not as the page does.

A text is a list of lines, each a list of words. `known(lines, index)` is what the lines up to one of them have told.
"""

import re
from fractions import Fraction

import kit

TICKS = 141_120_000_000


def outputs():
    """The files of examples/README.md that hold what the program printed."""
    return [path for path in sorted(kit.EXAMPLES.glob("*.txt")) if path.name != "cases.txt"]


def lines_of(path):
    return path.read_text().splitlines()


def kind_of(lines):
    first = {line.split()[0] for line in lines}
    for kind, words in [("play", {"call", "event", "state"}), ("feed", {"feed"}), ("make", {"made"}), ("ranges", {"duration"})]:
        if first & words:
            return kind
    return "fault" if "fault" in first else "error"


def ranges_in(text):
    """The ranges of a text, each as two numbers; [] for `none`."""
    return [(int(a), int(b)) for a, b in re.findall(r"\[(-?\d+),(-?\d+)[)\]]", text)]


def gaps_of(ranges):
    return [(left[1], right[0]) for left, right in zip(ranges, ranges[1:])]


def question_of(line):
    """What a line answers: a row's name and the text of the answer; None where it is no such answer."""
    asked = re.match(r"(?:call|listener \d+) (buffered \d+|elementbuffered|seekable): (.*)", line)
    if asked:
        name, answer = asked.groups()
        row = {"elementbuffered": "element", "seekable": "seekable"}.get(name, name.replace("buffered", "buffer"))
        return None if answer == "refused NoSuchBuffer" else (row, answer)
    told = re.match(r"(buffer \d+) phase .* buffered (.*)", line) or re.match(r"(track \d+ \d+) .* ranges (.*)", line)
    return told.groups() if told else None


def known(lines, index):
    """The last answer of each row, as its text."""
    rows = {}
    for line in lines[: index + 1]:
        answer = question_of(line)
        if answer:
            rows[answer[0]] = answer[1]
    return rows


def rows_of(lines):
    """All rows that the text speaks of, at any line: what is drawn, in its order."""
    buffers, tracks, made = set(), {}, 0
    for line in lines:
        for found in re.findall(r"^(?:event )?buffer (\d+)", line):
            buffers.add(int(found))
        answer = question_of(line)
        if answer and answer[0].startswith("buffer "):
            buffers.add(int(answer[0].split()[1]))
        if re.match(r"(call|listener \d+) add( .*)?: done$", line):
            buffers.add(made)
            made += 1
        track = re.match(r"track (\d+) (\d+) ", line)
        if track:
            tracks.setdefault(int(track[1]), []).append(f"track {track[1]} {track[2]}")
    rows = ["element", "seekable"] if kind_of(lines) == "play" else []
    for buffer in sorted(buffers):
        rows += [f"buffer {buffer}", *tracks.get(buffer, [])]
    return rows


def state_at(lines, index):
    """The level and the position that were told last, or None."""
    told = None
    for line in lines[: index + 1]:
        found = re.search(r"source (?:closed|open|ended) duration \S+ level (\d) position (\d+) ", line)
        if found:
            told = int(found[1]), int(found[2])
    return told


def events(lines):
    """The places of the events, with target and kind."""
    found = []
    for index, line in enumerate(lines):
        if line.startswith("event "):
            target, kind = line[len("event "):].rsplit(" ", 1)
            found.append((index, target, kind))
    return found


def refusals(lines):
    return [index for index, line in enumerate(lines) if re.search(r": refused \w+$", line)]


def faults(lines):
    return [line for line in lines if line.startswith(("fault ", "error: "))]


def mean_frame(lines, track):
    """The length of a frame of a track, by its ranges and its frames; None where it has none."""
    for line in lines:
        if line.startswith(track + " "):
            total = sum(b - a for a, b in ranges_in(line))
            frames = int(re.search(r" frames (\d+) ", line)[1])
            return Fraction(total, frames) if frames and total else None
    return None


def frames(lines):
    """The frames of feed, of each track: number, pts, dts, duration, whether it is a random access point."""
    tracks, track = {}, None
    for line in lines:
        words = line.split()
        if words[0] == "feed":
            track = tracks.setdefault(words[2], [])
        elif words[0] == "frame":
            track.append((words[1], int(words[3]), int(words[5]), int(words[7]), words[11] == "true"))
    return tracks

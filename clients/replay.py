#!/usr/bin/env python3
"""Makes of a recording the script that brings the program to where the browser was, call by call.

    replay.py ARCHIVE FOLDER      recording.zip of record.js; the script replayed.toml, its files and browser.txt are
                                  written into the folder, where `mseplay play replayed.toml` plays it

A live session goes on before each call until the same events of the same targets were fired that the page had heard by
then, and no further; what the order among targets was does not matter. Then it makes the call. What the session did
stands in the script: an event that was fired is `fire`, an item of work `work K`, a turn `element`, and where nothing
was left to do all of them are `drain`.

compare.py does this with each recording by itself.
"""
import re
import sys
import tempfile
import tomllib
import zipfile
from collections import Counter
from dataclasses import dataclass, field
from pathlib import Path

sys.dont_write_bytecode = True
sys.path.insert(0, str(Path(__file__).resolve().parent))

import known  # noqa: E402
import live  # noqa: E402

# A recording begins with this comment.
MARK = "recorded by clients/record.js"
READS = ("buffered", "elementbuffered")
# What a call may take of its line before it is a time of more digits than a script takes.
MOST_DIGITS = 24
# How often a quota is looked for with which the program refuses what the browser refused.
QUOTAS = 3
# Events of the element that no session has to go on for: those that come when they like, and those of a level, since
# a position has data in one and not in the other by rows of docs/BROWSERS.md.
FREE = {"timeupdate", "durationchange", "waiting", "playing", "loadeddata", "canplay", "canplaythrough"}

# Calls that are refused while the buffer is updating, or any.
NOT_WHILE_UPDATING = {"append", "remove", "changetype", "mode", "offset", "windowstart", "windowend", "duration",
                      "endofstream"}
# Those that no work brings, but a call of the element: behind such a call they are waited for again.
OF_CALLS = {"seeking", "seeked", "play", "pause", "ended"}


@dataclass
class Replayed:
    """A script as its text, what the browser did beside it, and which of its appends were left out."""
    script: str
    browser: str
    left_out: list = field(default_factory=list)


def is_recording(text):
    """Whether the text of a script is one that record.js wrote."""
    return MARK in text.split("\n", 1)[0]


# The browser's lines: events, and calls that are made at their place, also those of listeners.


@dataclass
class Heard:
    target: str
    type: str


@dataclass
class Made:
    line: str
    answer: str

    @property
    def words(self):
        return self.line.split(" ")

    @property
    def number(self):
        """The buffer of a call that has one."""
        has_one = self.words[0] in ("append", "remove", "abort", "changetype", "buffered", "mode", "offset",
                                    "windowstart", "windowend", "removebuffer")
        return int(self.words[1]) if has_one else None


def read_browser(text):
    """What the browser did, and the lines that close it."""
    told, closing = [], []
    for line in text.splitlines():
        if found := re.fullmatch(r"event (\w+|buffer \d+) (\w+)", line):
            told.append(Heard(*found.groups()))
        elif found := re.fullmatch(r"(?:call|listener \d+) (.*): (done|refused \w+|ranges? .*|source .*)", line):
            told.append(Made(*found.groups()))
        else:
            closing.append(line)
    return told, closing


def script_line(line):
    """A printed call as a line of a script: times of too many digits are told in seconds."""
    name = line.split(" ")[0]
    if name in ("add", "changetype"):
        return line
    far = rf"-?\d{{{MOST_DIGITS + 1},}}"
    return re.sub(far, lambda found: f"{int(found[0]) // known.SECOND}/1", line)


def toml_text(text):
    if "'" not in text:
        return f"'{text}'" if '"' in text else f'"{text}"'
    return '"' + text.replace("\\", "\\\\").replace('"', '\\"') + '"'


def comments_of(text):
    """The comments that head a script, those above each of its calls, and those behind the last."""
    head, above, waiting = [], [], []
    for line in text.splitlines():
        if line.startswith("  #"):
            waiting.append(line.strip())
        elif line.startswith("  "):
            found = tomllib.loads(f"line = {line.strip().rstrip(',')}")["line"]
            if found not in ("drain", "fire"):
                above.append((found, waiting))
                waiting = []
        elif line.startswith("# "):
            head.append(line)
    return head, above, waiting


# The replay.


class Replay:
    """One way through what the browser did, in a session of its own."""

    def __init__(self, blobs, keys, told, comments, without=(), is_left=False):
        self.blobs, self.keys, self.told = blobs, keys, told
        self.comments = list(comments)
        self.without = set(without)
        # the page left its source, and heard no more of it
        self.is_left = is_left
        self.session = live.engine().open(blobs, keys)
        self.lines = []
        # steps of the session since the last call, and whether a drain would have done the same ones
        self.since, self.is_drain = [], True
        self.heard, self.fired, self.lost = Counter(), Counter(), Counter()
        # refused appends, by their place, with the bytes that the buffer held; answers that are others
        self.refused, self.others = {}, []
        self.fullest = Counter()

    def close(self):
        self.session.close()

    def run(self):
        for place, each in enumerate(self.told):
            if isinstance(each, Heard):
                self.heard[each.target, each.type] += 1
                continue
            self.come_to()
            self.end_works(place, each)
            if each.words[0] in READS:
                self.work_until_read(each)
            self.put_steps()
            self.make(place, each)
        self.come_to(is_end=self.is_left)
        if not self.is_busy() and not self.is_left:
            self.since, self.is_drain = [], False
            self.lines.append("drain")
        self.put_steps()
        return self

    # Going on.

    def do(self, line):
        self.is_drain = self.is_drain and line == self.session.next
        printed, _ = self.session.step(line)
        self.since.append(line)
        for text in printed:
            if found := re.fullmatch(r"event (\w+|buffer \d+) (\w+)", text):
                self.hear(found.groups())

    def hear(self, event):
        self.fired[event] += 1
        self.lost[event] = min(self.lost[event], max(0, self.heard[event] - self.fired[event]))

    def missing(self):
        """The events that the page had heard and the session did not fire."""
        return [event for event, count in self.heard.items()
                if not (event[0] == "element" and event[1] in FREE)
                and self.fired[event] < count - self.lost[event]]

    def come_to(self, is_end=False):
        while missing := self.missing():
            line = next(filter(None, map(self.step_towards, missing)), None)
            if line is None:
                for event in missing:
                    self.lost[event] = self.heard[event] - self.fired[event]
                return
            self.do(line)
        # events that nobody waits for: a session without listeners is the same before and behind them
        while self.session.next == "fire" and not self.running() and not is_end:
            self.do("fire")

    def running(self):
        return [number for number in range(self.buffers()) if self.is_updating(number)]

    def buffers(self):
        return sum(1 for each in self.told if isinstance(each, Made) and each.words[0] == "add")

    def is_updating(self, number):
        look = self.session.buffer(number)
        return bool(look and look.updating)

    def step_towards(self, event):
        """The step that may bring an event, or None."""
        target, kind = event
        if self.session.next == "fire":
            return "fire"
        if target.startswith("buffer "):
            number = int(target.split(" ")[1])
            return f"work {number}" if self.is_updating(number) else None
        running = self.running()
        if target == "activesourcebuffers" or kind == "loadedmetadata":
            running = [number for number in running if not self.session.buffer(number).active]
        if running and kind in ("addsourcebuffer", "loadedmetadata", "error", "sourceended"):
            return f"work {running[0]}"
        if kind in ("seeked", "ended") and self.turn_is_due():
            return "element"
        return None

    def turn_is_due(self):
        """Whether a turn would do something: where work runs, the session tells of the work first."""
        if self.session.next == "element":
            return True
        if not self.running() or self.since[-1:] == ["element"]:
            return False
        return True

    def is_busy(self):
        """Whether the browser's recording ends while a buffer was updating."""
        begun = Counter(each.number for each in self.told if isinstance(each, Made)
                        and each.words[0] in ("append", "remove") and each.answer == "done")
        return any(self.heard[f"buffer {number}", "updateend"] < count for number, count in begun.items())

    # What a call tells of how far the work was.

    def end_works(self, place, call):
        """A call that is refused while work runs, and was not, or an abort that ended nothing: the work had ended,
        though its events were yet to come."""
        ends = call.words[0] in NOT_WHILE_UPDATING or call.words[0] == "abort" and self.ends_nothing(place, call.number)
        if call.answer != "done" or not ends:
            return
        for number in [call.number] if call.number is not None else self.running():
            while self.is_updating(number):
                self.do(f"work {number}")

    def ends_nothing(self, place, number):
        """Whether `update` is what comes of the append that an abort is made behind."""
        kinds = (each.type for each in self.told[place + 1:] if isinstance(each, Heard)
                 and each.target == f"buffer {number}" and each.type in ("update", "abort"))
        return next(kinds, None) == "update"

    def work_until_read(self, read):
        if not read.answer.startswith("ranges"):
            return
        goal = known_ranges(read.answer)
        numbers = [read.number] if read.number is not None else self.running()
        for number in numbers:
            left = self.works_left(number) if self.is_updating(number) and not self.has_read(read, goal) else 0
            while left > 1 and not self.has_read(read, goal):
                self.do(f"work {number}")
                left -= 1

    def has_read(self, read, goal):
        """Whether all that the browser has is buffered here."""
        look = self.session.buffer(read.number) if read.number is not None else None
        ranges = (look.ranges if look else []) if read.number is not None else self.session.ranges()
        return all(any(first <= start + known.NEAR and end <= last + known.NEAR for first, last in ranges)
                   for start, end in goal)

    def works_left(self, number):
        """How many items of work a buffer has yet, the end of the append with them: tried in a second session."""
        other = live.engine().open(self.blobs, self.keys)
        for line in [*self.lines, *self.since]:
            if not line.startswith("#"):
                other.step(line)
        count = 0
        while (look := other.buffer(number)) and look.updating:
            other.step(f"work {number}")
            count += 1
        other.close()
        return count

    # Calls.

    def put_steps(self):
        """Writes the steps since the last call."""
        if self.since and self.is_drain and self.session.next is None:
            self.since = ["drain"]
        self.lines += self.since
        self.since, self.is_drain = [], True

    def make(self, place, call):
        line = script_line(call.line)
        if self.comments and self.comments[0][0] == line:
            self.lines += self.comments.pop(0)[1]
        is_append = call.words[0] == "append"
        used = self.used(call.number) if is_append else 0
        if is_append and call.answer == "refused QuotaExceededError":
            self.refused[place] = used
        if place in self.without:
            self.lines.append(f"# left out, refused by the quota of the browser: {line}")
            return
        self.lines.append(line)
        _, refused = self.session.step(line)
        if call.words[0] in ("advance", "seek", "play", "pause", "endofstream"):
            # what the element did not do before it may do now
            for event in [event for event in self.lost if event[0] == "element" and event[1] in OF_CALLS]:
                del self.lost[event]
        answer = f"refused {refused}" if refused else "done"
        if is_append and (answer != call.answer or (not refused and used >= self.keys.get("quota", 1 << 27))):
            self.others.append(place)

    def used(self, number):
        look = self.session.buffer(number)
        return look.used if look else 0


def known_ranges(answer):
    return [(int(first), int(last)) for first, last in re.findall(r"\[(-?\d+),(-?\d+)\)", answer)]


def best_replay(blobs, keys, told, comments, is_left):
    """The replay, with a quota where the browser refused an append for its own: one with which the program refuses the
    same appends and no other, or else without these appends."""
    refused = [place for place, each in enumerate(told) if isinstance(each, Made)
               and each.words[0] == "append" and each.answer == "refused QuotaExceededError"]
    without = Replay(blobs, keys, told, comments, refused, is_left).run()
    for quota in list(dict.fromkeys(filter(None, without.refused.values())))[:QUOTAS]:
        tried = Replay(blobs, {**keys, "quota": quota}, told, comments, (), is_left).run()
        if not tried.others:
            return tried
    return without


def script_text(replay, head, blobs, behind):
    lines = [*head, *[f"{key} = {value}" for key, value in replay.keys.items()]]
    lines += [f"blobs = [{', '.join(map(toml_text, blobs))}]", "steps = ["]
    lines += [f"  {line if line.startswith('#') else toml_text(line) + ','}" for line in [*replay.lines, *behind]]
    return "\n".join([*lines, "]"]) + "\n"


def browser_text(told, closing, without):
    """The browser's lines, with each call as a call of the script, and those that were left out as comments."""
    lines = []
    for place, each in enumerate(told):
        if isinstance(each, Heard):
            lines.append(f"event {each.target} {each.type}")
        elif place in without:
            lines.append(f'# left out, refused by the browser for its quota (docs/BROWSERS.md, "The quota"): {each.line}')
        else:
            lines.append(f"call {each.line}: {each.answer}")
    return "\n".join([*lines, *closing]) + "\n"


def replayed(script, browser, path_of):
    """The Replayed of a script of record.js and its browser's lines, as texts; `path_of` finds a file by its name."""
    values = tomllib.loads(script)
    blobs = [bytes.fromhex(blob[4:]) if blob.startswith("hex ") else path_of(blob[5:]) for blob in values["blobs"]]
    keys = {key: values[key] for key in ("quota", "gap") if key in values}
    told, closing = read_browser(browser)
    head, comments, behind = comments_of(script)
    is_left = any(comment.startswith("# left by ") for comment in behind)
    replay = best_replay(blobs, keys, told, comments, is_left)
    return Replayed(script_text(replay, head, values["blobs"], behind), browser_text(told, closing, replay.without),
                    sorted(replay.without))


def replay_archive(path, folder):
    """Writes the script of an archive of record.js with its files into a folder."""
    folder = Path(folder)
    folder.mkdir(parents=True, exist_ok=True)
    with zipfile.ZipFile(path) as archive:
        archive.extractall(folder)
    texts = [(folder / name).read_text(encoding="utf-8") for name in ("recording.toml", "browser.txt")]
    done = replayed(*texts, lambda name: folder / name)
    (folder / "replayed.toml").write_text(done.script, encoding="utf-8")
    (folder / "browser.txt").write_text(done.browser, encoding="utf-8")
    return done


def main(words):
    if len(words) != 2 or any(word.startswith("-") for word in words):
        print(__doc__.strip(), file=sys.stderr)
        return 2
    try:
        replay_archive(*words)
    except (OSError, zipfile.BadZipFile, KeyError, live.NoEngine) as problem:
        print(f"{words[0]} is not replayed: {problem}", file=sys.stderr)
        return 2
    print(Path(words[1]) / "replayed.toml")
    return 0


if __name__ == "__main__":
    sys.exit(main(sys.argv[1:]))

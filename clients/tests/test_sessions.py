"""Sessions of the static library mseplay_c: from programs in C, and from Python."""

import collections
import contextlib
import ctypes
import functools
import os
import random
import re
import subprocess
import sys
import tempfile
import threading
import tomllib
from pathlib import Path

import kit
from c_kit import (
    C, COUNTED_HEAP, HEAP, READ, SANITIZERS, archive_and_compiler, build, by_program, mseplay, sanitizing, write_script,
)

SESSIONS = kit.TESTS / "sessions.c"
PLAIN = "plain.mp4"
# The steps of sessions.c.
STEPS = ["attach", "add video/mp4", "add video/nothing", "append 0 0", "append 0 0", "drain", "buffered 0",
         "remove 0 inf 0", "removebuffer 1", "append 0 0 1000000 1"]


# In C.


def media():
    """The media files of examples/, by their type."""
    for path in sorted(kit.EXAMPLES.glob("*")):
        if path.suffix in (".mp4", ".m4a"):
            yield "video/mp4", path.name
    for path in sorted(kit.EXAMPLES.glob("media/*.aac")):
        yield "audio/aac", f"media/{path.name}"


def segments_told(text):
    """Of what session.c prints: the length of each segment with its answer and the lines behind it, and the fault."""
    *parts, fault = re.split(r"^(?=segment|fault)", text, flags=re.M)[1:]
    if not fault.startswith("fault"):
        parts, fault = [*parts, fault], None
    segments = []
    for part in parts:
        head, *lines = part.splitlines()
        _, _, _, length, *refused = head.split(" ")
        segments.append((int(length), " ".join(refused), lines))
    return segments, fault


def script_of(kind, name, segments, folder):
    """What `play` prints of a script with the same appends, ended with each segment by its ranges."""
    steps, start = ["attach", f"add {kind}"], 0
    for length, _, _ in segments:
        steps += [f"append 0 0 {start} {length}", "drain", "buffered 0"]
        start += length
    script = Path(folder) / "script.toml"
    write_script(script, steps, [f"file {name}"])
    status, printed = by_program(["play", str(script)])
    assert status == 0
    return printed.decode()


def check_segments(kind, name, text, folder):
    """What session.c printed of a file is what the program prints of the same appends; how many segments there were."""
    segments, fault = segments_told(text)
    printed = script_of(kind, name, segments, folder)
    answers = re.findall(r"^call append [^:]*: (?:(refused \w+)|done)$", printed, re.M)
    assert [refused for _, refused, _ in segments] == answers
    ranges = re.findall(r"^call buffered 0: ranges (.*)$", printed, re.M)
    assert [lines[0] for _, _, lines in segments] == [f"buffered {each}" for each in ranges]
    tracks = re.findall(r"^track 0 (.*)$", printed, re.M)
    assert segments[-1][2][1:] == [f"track {each}" for each in tracks]
    told = re.search(r"^fault (\d+) .*at (\d+)$", printed, re.M)
    assert fault == (told and f"fault {told[1]} at {told[2]}\n")
    if not any(answers):
        assert sum(length for length, _, _ in segments) == (kit.EXAMPLES / name).stat().st_size
    return len(segments)


def run_in_c(path, *words):
    """The status of a program in C, and what it prints; nothing on standard error."""
    done = subprocess.run([path, *words], cwd=kit.EXAMPLES, capture_output=True, timeout=240)
    assert done.stderr == b"", done.stderr.decode()[-2000:]
    return done.returncode, done.stdout.decode()


def text_of_readme(command):
    """What README.md shows below a command."""
    lines = (kit.CLIENTS / "README.md").read_text().split(f"    $ {command}\n")[1].split("\n\n")[0].splitlines()
    return "".join(line.removeprefix("    ") + "\n" for line in lines)


def test_segments_in_c():
    """session.c looks at the ranges and tracks that the program prints of the same appends, behind each segment."""
    archive_and_compiler()
    kit.program()
    files, count = list(media()), 0
    with tempfile.TemporaryDirectory() as folder:
        path = build(Path(folder) / "session", C / "session.c", READ, HEAP)
        for kind, name in files:
            status, text = run_in_c(path, kind, name)
            count += check_segments(kind, name, text, folder)
            assert status == (9 if "\nfault" in text else 2 if "refused" in text else 0), name
        assert run_in_c(path, "video/mp4", PLAIN) == (0, text_of_readme("session video/mp4 plain.mp4"))
        lost = subprocess.run([path, "text/html", PLAIN], cwd=kit.EXAMPLES, capture_output=True)
        assert (lost.returncode, lost.stderr) == (2, b"session: the type is refused: NotSupportedError\n")
    return f"{len(files)} files, {count} segments"


def lines_by_library(steps, blobs, **keys):
    """What `play` prints of a script with these steps, with `blobs` as files by name."""
    names = [f"file {name}" for name in blobs]
    with tempfile.TemporaryDirectory() as folder:
        script = Path(folder) / "script"
        write_script(script, steps, names, **keys)
        status, printed = library()(["play", "script"], {"script": script.read_bytes(), **blobs})
    assert status == 0
    return printed.decode().splitlines()


def check_sessions(path):
    status, text = run_in_c(path, PLAIN)
    assert status == 0
    steps_alone = lines_by_library(STEPS, {PLAIN: read(PLAIN)})
    assert text.splitlines() == steps_alone[:len(text.splitlines())]
    assert text.endswith("call append 0 0 1000000 1: refused NoSuchBytes\n")


def test_calls_in_c():
    """sessions.c: two sessions by turns and in threads, small rooms, what is not there, and want of memory."""
    archive_and_compiler()
    with tempfile.TemporaryDirectory() as folder:
        check_sessions(build(Path(folder) / "sessions", SESSIONS, READ, COUNTED_HEAP, standard="c11"))


def check_sanitized(name, package):
    compiler = sanitizing(name, package)
    archive_and_compiler()
    options = {"compiler": compiler, "flags": SANITIZERS}
    with tempfile.TemporaryDirectory() as folder:
        room = Path(folder)
        check_sessions(build(room / "sessions", SESSIONS, READ, COUNTED_HEAP, standard="c11", **options))
        session = build(room / "session", C / "session.c", READ, HEAP, **options)
        for kind, file in media():
            assert run_in_c(session, kind, file)[0] in (0, 2, 9), file
        play = build(room / "play", C / "play.c", READ, HEAP, **options)
        assert run_in_c(play, "overlap.toml", "groups.mp4")[0] == 0


def test_sanitized_by_gcc():
    """The programs in C under the address, leak and undefined behaviour sanitizers of gcc."""
    check_sanitized("gcc", "gcc")


def test_sanitized_by_clang():
    """And those of clang."""
    check_sanitized("clang", "clang")


# In Python.


@functools.cache
def library():
    archive_and_compiler()
    return mseplay.Library()


def read(name):
    return (kit.EXAMPLES / name).read_bytes()


def opened(**keys):
    archive_and_compiler()
    return mseplay.Session(**keys)


def blob_bytes(text):
    """The bytes of a blob of a script."""
    kind, _, rest = text.partition(" ")
    return read(rest) if kind == "file" else bytes.fromhex(rest)


def scripts():
    """The scripts of examples/ without rules that `play` plays, with what it prints of each."""
    for path in sorted(kit.EXAMPLES.rglob("*.toml")):
        name = str(path.relative_to(kit.EXAMPLES))
        with contextlib.suppress(tomllib.TOMLDecodeError, UnicodeDecodeError):
            script = tomllib.loads(path.read_text())
            files = {name: path.read_bytes()}
            for blob in script.get("blobs", []):
                word, _, rest = str(blob).partition(" ")
                if word == "file" and (kit.EXAMPLES / rest).is_file():
                    files[rest] = read(rest)
            status, printed = library()(["play", name], files)
            if status == 0 and not script.get("rules"):
                yield name, script, printed.decode().splitlines()


def steps_of_drain(session):
    """Does a drain by asking for each of its steps."""
    lines = []
    while line := session.next():
        lines += session.step(line).lines
    return lines


def replay(script, drain, behind_step=lambda session: None):
    """The lines of a script's steps in a session, and its block; None where a step names a blob that there is not."""
    with opened(**{key: script[key] for key in ("quota", "gap") if key in script}) as session:
        for blob in script.get("blobs", []):
            session.give(blob_bytes(blob))
        lines = []
        for step in script.get("steps", []):
            try:
                lines += drain(session) if step == "drain" else session.step(step).lines
            except mseplay.NoSuchBytes:
                assert int(step.split(" ")[2]) >= len(script.get("blobs", [])), step
                return None
            behind_step(session)
        return lines + session.block()


def by_step(session):
    return session.step("drain").lines


def test_scripts_by_steps():
    """Each script of examples/ without rules prints by steps what `play` prints, also where drains are asked for."""
    counts = collections.Counter()
    for name, script, printed in scripts():
        for drain in by_step, steps_of_drain:
            lines = replay(script, drain)
            counts[lines is not None] += 1
            assert lines in (None, printed), name
    assert counts[True] > 800 and counts[False] < counts[True] / 50, counts
    return f"{counts[True]} replays, {counts[False]} with bytes that no blob has"


# What is looked at, in the words of the block.


def time_text(time):
    return str(time) if isinstance(time, int) else {"inf": "inf", "nan": "nan"}[str(time)]


def ranges_text(ranges):
    return " ".join(f"[{start},{end})" for start, end in ranges) or "none"


def truth(value):
    return str(value).lower()


@functools.cache
def fault_names():
    """Of docs/SCRIPTS.md the names of faults by their numbers, and the inner names of each in their order."""
    section = (kit.REPOSITORY / "docs" / "SCRIPTS.md").read_text().split("## Faults\n")[1].split("\n## ")[0]
    faults, *inner = section.split(" is followed by one of these:")
    names = {int(number): name for number, name in re.findall(r"^\| (\d+) \| `(\w+)` \|", faults, re.M)}
    rows = [re.findall(r"^\| (`[^|]*) \|", table, re.M) for table in inner]
    return names, [[name for row in table for name in re.findall(r"`([A-Z]\w+)", row)] for table in rows]


def fault_line(fault):
    """The line of a fault, by its numbers and the names in docs/SCRIPTS.md."""
    names, inner = fault_names()
    words = ["fault", str(fault.number), names[fault.number]]
    if fault.inner:
        words.append(inner[("Init", "Moof").index(names[fault.number])][fault.inner - 1])
    if fault.missing:
        words.append(fault.missing)
    return " ".join([*words, "buffer", str(fault.buffer), "at", str(fault.offset)])


def block_of_looks(session):
    """The block as looks tell it."""
    found = session.attributes()
    lines = [f"state source {found.source} duration {time_text(found.duration)} level {found.level} position "
             f"{found.position} paused {truth(found.paused)} seeking {truth(found.seeking)} error {found.error}",
             f"duration {time_text(found.duration)}"]
    for number in range(found.made):
        with contextlib.suppress(mseplay.NoSuchBuffer):
            buffer = session.buffer(number)
            lines.append(f"buffer {number} phase {buffer.phase} held {buffer.held} used {buffer.used} "
                         f"buffered {ranges_text(buffer.buffered)}")
            for track in buffer.tracks:
                lines.append(f"track {number} {track.id} {track.kind} {track.codec} frames {track.frames} "
                             f"ranges {ranges_text(track.ranges)}")
    if found.fault:
        lines.append(fault_line(found.fault))
    return lines


def check_looks(session):
    """What is looked at is what the lines of questions and of the block say. Lines that ask change nothing."""
    assert session.block() == block_of_looks(session), (session.block(), block_of_looks(session))
    found = session.attributes()
    for number in range(found.made):
        try:
            assert session.step(f"buffered {number}") == (
                [f"call buffered {number}: ranges {ranges_text(session.buffer(number).buffered)}"], None)
        except mseplay.NoSuchBuffer:
            assert session.step(f"buffered {number}").refused == "InvalidStateError"
    assert session.step(f"buffered {found.made}").refused == "NoSuchBuffer"
    assert session.step("elementbuffered").lines == [f"call elementbuffered: ranges {ranges_text(found.buffered)}"]
    seekable = "[{},{}]".format(*found.seekable) if found.seekable else "none"
    assert session.step("seekable").lines == [f"call seekable: range {seekable}"]


def test_looks():
    """Behind each step of each script, what is looked at is what the program would print."""
    count = 0

    def behind_step(session):
        nonlocal count
        check_looks(session)
        count += 1
    for name, script, _ in scripts():
        try:
            replay(script, by_step, behind_step)
        except AssertionError as error:
            raise AssertionError(f"{name}: {error}") from error
    assert count > 1000
    return f"{count} steps"


def test_attributes_of_a_buffer():
    """What the program does not print: `updating`, `mode`, the offset, the window, and whether a buffer is active."""
    with opened() as session:
        session.give(read(PLAIN))
        for step in ("attach", "add video/mp4", "add audio/mp4", "mode 0 sequence", "offset 0 -5", "windowend 0 7/1",
                     "windowstart 0 3"):
            assert session.step(step).refused is None
        session.step("drain")
        idle = session.buffer(0)
        assert (idle.mode, idle.timestamp_offset, idle.append_window_start) == ("sequence", -5, 3)
        assert idle.append_window_end == 7 * 141_120_000_000 and not idle.updating and not idle.active
        other = session.buffer(1)
        assert (other.mode, other.timestamp_offset, other.append_window_end) == ("segments", 0, float("inf"))
        session.step("append 0 0")
        assert session.buffer(0).updating
        session.step("drain")
        assert not session.buffer(0).updating and session.buffer(0).active and not session.buffer(1).active
        assert session.attributes().made == 2
        session.step("removebuffer 1")
        raises(mseplay.NoSuchBuffer, session.buffer, 1)
        assert session.attributes().made == 2


def test_attributes_of_the_element():
    """What the program does not print: whether playback has ended, and where it is to begin."""
    with opened() as session:
        session.give(read(PLAIN))
        for step in ("attach", "add video/mp4", "seek 1/20"):
            session.step(step)
        found = session.attributes()
        assert (found.position, found.start_position, found.ended) == (0, 7_056_000_000, False)
        for step in ("append 0 0", "drain", "endofstream", "drain", "play", "advance 1/1", "drain"):
            session.step(step)
        found = session.attributes()
        assert (found.position, found.start_position, found.ended) == (14_112_000_000, 0, True)
        assert found.duration == found.position and found.paused


def raises(kind, call, *arguments):
    """The exception of a kind that a call raises."""
    try:
        call(*arguments)
    except kind as error:
        assert type(error) is kind
        return error
    raise AssertionError(f"{call} raised no {kind.__name__}")


def test_refused_and_not_there():
    """A refused step has its name; what is no step, no buffer or out of range raises, and changes nothing."""
    with opened() as session:
        assert session.give(read(PLAIN)) == 0 and session.give(b"") == 1
        expected = [None, None, "NotSupportedError", None, "InvalidStateError", None, None, "TypeError", "NoSuchBuffer",
                    "NoSuchBytes"]
        found = [session.step(step) for step in STEPS]
        assert [refused for _, refused in found] == expected
        for lines, refused in found:
            assert refused is None or lines[-1].endswith(f": refused {refused}")
        before = session.block()
        for line in ("", "nothing", "drain\n", "\0", "é", "\udcff", "work 4294967296", "append 0 0 1"):
            raises(mseplay.NoSuchStep, session.step, line)
        raises(mseplay.NoSuchBytes, session.step, "append 0 2")
        for number in (1, 1 << 32, -1):
            raises(mseplay.NoSuchBuffer, session.buffer, number)
        raises(mseplay.OutOfRange, session.forget, -1)
        session.forget(1)
        session.forget(0)
        raises(mseplay.NoSuchBytes, session.step, "append 0 0")
        assert session.block() == before
        assert session.step("append 0 1").lines == ["call append 0 1: done"]
        session.forget((1 << 64) - 1)
        assert session.give(b"x") == 2
        assert session.step("state").refused is None
    for keys in ({"quota": 0}, {"quota": (1 << 40) + 1}, {"gap": -1}, {"gap": (1 << 40) + 1}, {"quota": 1 << 64}):
        raises(mseplay.OutOfRange, lambda keys=keys: opened(**keys))


def test_quota_is_refused():
    """An append that meets the quota is refused by its name."""
    with opened(quota=10) as session:
        session.give(read("media/frames.aac"))
        for step in ("attach", "add audio/aac", "append 0 0 0 10", "drain", "append 0 0 0 10"):
            refused = session.step(step).refused
        assert refused == "QuotaExceededError"


def test_closed():
    """Each call on a closed session raises, and a second close does nothing."""
    with opened() as session:
        session.step("attach")
    for call in (lambda: session.give(b""), lambda: session.forget(0), lambda: session.step("attach"), session.next,
                 session.attributes, lambda: session.buffer(0), session.block):
        raises(mseplay.SessionClosed, call)
    session.close()


def play_small(session):
    """A small play, whose bytes are given in parts; its lines and its block."""
    data = read("groups.mp4")
    lines = session.step("attach").lines + session.step("add video/mp4").lines
    for start in range(0, len(data), 100):
        blob = session.give(data[start:start + 100])
        lines += session.step(f"append 0 {blob}").lines
        lines += by_step(session)
        session.forget(blob + 1)
    return lines + session.block()


def test_two_at_once():
    """Two sessions by turns, line by line, print what one alone does."""
    with opened() as alone:
        expected = play_small(alone)
    choose = random.Random(5)
    with opened() as first, opened(gap=1) as second:
        data, found = read("groups.mp4"), {first: [], second: []}
        steps = {session: iter(["attach", "add video/mp4", *range(0, len(data), 100)]) for session in found}
        while steps:
            session = choose.choice(list(steps))
            step = next(steps[session], None)
            if step is None:
                del steps[session]
                found[session] += session.block()
            elif isinstance(step, int):
                blob = session.give(data[step:step + 100])
                found[session] += session.step(f"append 0 {blob}").lines + steps_of_drain(session)
            else:
                found[session] += session.step(step).lines
    assert found[first] == found[second] == expected


def test_threads():
    """One session in each of two threads, and one that two threads share."""
    with opened() as alone:
        expected = play_small(alone)
    found = []

    def play():
        for _ in range(20):
            with opened() as session:
                found.append(play_small(session))
    run_in_threads(play, play)
    assert len(found) == 40 and all(lines == expected for lines in found)
    with opened() as shared:
        def ask():
            for _ in range(500):
                assert shared.step("state").lines[0].startswith("call state: source closed ")
                assert shared.attributes().source == "closed"
                found.append(None)
        run_in_threads(ask, ask)
    assert found.count(None) == 1000


def run_in_threads(*functions):
    threads = [threading.Thread(target=function) for function in functions]
    for thread in threads:
        thread.start()
    for thread in threads:
        thread.join()


def test_long_texts():
    """What is longer than the first room is printed whole."""
    with opened(gap=0) as session:
        session.give(read("media/frames.aac"))
        session.step("attach")
        session.step("add audio/aac")
        for number in range(300):
            session.step(f"offset 0 {number}/10")
            session.step("append 0 0")
            session.step("drain")
        lines = session.step("buffered 0").lines
        assert len(lines) == 1 and len(lines[0]) > 2 * 4096
        assert lines[0] == f"call buffered 0: ranges {ranges_text(session.buffer(0).buffered)}"
        assert len(session.buffer(0).buffered) == 300
        long = "add " + "x" * 2 * mseplay.FIRST_ROOM
        assert session.step(long) == ([f"call {long}: refused NotSupportedError"], "NotSupportedError")


# Memory.


@functools.cache
def counted():
    """The library over heap_counted.c."""
    archive_and_compiler()
    with tempfile.TemporaryDirectory() as folder:
        made = mseplay.declared(mseplay.shared_library(folder, COUNTED_HEAP))
    for name in ("heap_blocks", "heap_bytes"):
        getattr(made, name).restype = ctypes.c_size_t
    made.heap_refuse_from.argtypes = [ctypes.c_size_t]
    made.heap_has_refused.restype = ctypes.c_bool
    return made


def test_memory_is_given_back():
    """A closed session has given back each block, also where it was collected without close."""
    heap = counted()
    for _ in range(2):
        with opened(library=heap) as session:
            play_small(session)
            assert heap.heap_blocks() > 0
        assert (heap.heap_blocks(), heap.heap_bytes()) == (0, 0)
    session = opened(library=heap)
    play_small(session)
    del session
    assert heap.heap_blocks() == 0


def test_memory_stays():
    """Appends under a quota, whose bytes are forgotten, take no more memory behind 5,000 than behind 1,000."""
    heap, data, found = counted(), read(PLAIN), []
    with opened(quota=1000, library=heap) as session:
        session.give(data[:595])
        for step in ("attach", "add video/mp4", "append 0 0", "drain", "play"):
            session.step(step)
        for number in range(1, 5001):
            session.give(data[595:])
            for step in (f"offset 0 {number}/10", f"append 0 {number}", "drain", "advance 1/10", "drain"):
                assert session.step(step).refused is None
            session.forget(number + 1)
            if number in (1000, 5000):
                found.append(heap.heap_bytes())
    assert found[1] < found[0] * 1.1, found
    return "{:,} and {:,} bytes".format(*found)


def test_want_of_memory():
    """Where no memory is left a step raises with a front of its lines, and from then on each call does."""
    heap, ended = counted(), 0
    with opened(library=heap) as session:
        expected = play_small(session)
    for count in range(0, 2000, 7):
        with opened(library=heap) as session:
            heap.heap_refuse_from(count)
            try:
                printed, is_ended = steps_till_refused(session)
            finally:
                heap.heap_refuse_from((1 << 64) - 1)
            assert printed == expected[:len(printed)]
            if is_ended:
                ended += 1
                check_ended(session)
        assert heap.heap_blocks() == 0
    assert ended > 20
    return f"{ended} sessions ended"


def steps_till_refused(session):
    """What `play_small` prints before its block, up to the first want of memory, and whether a step met it."""
    data, printed = read("groups.mp4"), []
    calls = [(session.step, "attach"), (session.step, "add video/mp4")]
    for number, start in enumerate(range(0, len(data), 100)):
        calls += [(session.give, data[start:start + 100]), (session.step, f"append 0 {number}"),
                  (session.step, "drain"), (session.forget, number + 1)]
    for call, argument in calls:
        try:
            found = call(argument)
        except mseplay.OutOfMemory as error:
            return printed + error.lines, call == session.step
        if call == session.step:
            printed += found.lines
    return printed, False


def check_ended(session):
    for call in (session.next, session.attributes, lambda: session.buffer(0), session.block,
                 lambda: session.step("state"), lambda: session.give(b"x"), lambda: session.forget(0)):
        raises(mseplay.OutOfMemory, call)


# The guide.


def lines_of_guide(language):
    """The lines that clients/README.md shows in this language, on sessions."""
    guide = (kit.REPOSITORY / "clients" / "README.md").read_text()
    section = guide.split("## How do I drive the engine a step at a time?")[1].split("\n## ")[0]
    return re.search(rf"```{language}\n(.*?)```", section, re.S).group(1)


def test_guide_in_c():
    """The lines in C that clients/README.md shows look at the ranges of plain.mp4."""
    archive_and_compiler()
    include, _, calls = lines_of_guide("c").partition("\n")
    data = ", ".join(map(str, read(PLAIN)))
    text = (f"#include <stdio.h>\n#include <string.h>\n{include}\nstatic const uint8_t media[] = {{{data}}};\n"
            f"int main(void) {{\n{calls}"
            'printf("%zu %llu", look.ranges, (unsigned long long)ranges[0].end.low);\nreturn 0; }\n')
    with tempfile.TemporaryDirectory() as folder:
        source = Path(folder) / "guide.c"
        source.write_text(text)
        path = build(Path(folder) / "guide", source, HEAP)
        assert run_in_c(path) == (0, "1 14112000000")


def test_guide_in_python():
    """So do those in Python."""
    archive_and_compiler()
    done = subprocess.run([sys.executable, "-c", lines_of_guide("python")], timeout=120, cwd=kit.REPOSITORY,
                          env={**os.environ, "PYTHONPATH": str(C)}, stdout=subprocess.PIPE)
    assert done.stdout == b"[(0, 14112000000)]\n"

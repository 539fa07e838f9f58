"""replay.py on texts, without a browser: what the script of a recording does before each call."""

import contextlib
import io
import re
import sys
import tempfile
import tomllib
import zipfile
from pathlib import Path

import kit

sys.path.insert(0, str(kit.CLIENTS))

import compare  # noqa: E402
import live  # noqa: E402
import replay  # noqa: E402
import scripts  # noqa: E402

ROWS = kit.CLIENTS / "rows"
HEAD = "# A page's calls, recorded by clients/record.js.\n# Browser: Chrome/156\n"
PICTURES = 'video/mp4; codecs="avc1.42C00A"'
SOUND = 'audio/mp4; codecs="mp4a.40.2"'
OPENED = ["call attach: done", "event source sourceopen"]
PLAIN = str(ROWS / "plain.mp4")
LARGE = str(ROWS / "large.mp4")


def engine():
    try:
        return live.engine()
    except live.NoEngine as missing:
        raise kit.Skip(str(missing)) from missing


def append(number, first, length, blob=0, *, heard=("updatestart", "update", "updateend")):
    """The lines of an append and of the events that were heard of it."""
    return [f"call append {number} {blob} {first} {length}: done", *(f"event buffer {number} {kind}" for kind in heard)]


def replayed(lines, *files, comments=()):
    """The steps of the script that is made of a browser's lines, and the browser's lines of then."""
    engine()
    blobs = ", ".join(f"'file {name}'" for name in files)
    steps = "".join(f"  {line}\n" for line in comments)
    done = replay.replayed(f"{HEAD}blobs = [{blobs}]\nsteps = [\n{steps}]\n", "\n".join(lines) + "\n", Path)
    return tomllib.loads(done.script), done


def differences(lines, *files):
    """The differences between a replayed recording and what the browser did, without those of levels and the end."""
    kit.program()
    _, done = replayed(lines, *files)
    script = scripts.of_text(done.script, {name: Path(name) for name in files})
    _, _, found = compare.compared(script, scripts.printed(script), done.browser)
    return [compare.told(one) for one in found if not one.row]


def test_two_buffers_whose_second_is_first():
    """The buffers go on by themselves: before the second call of the one nothing of the other is done."""
    audio = str(kit.EXAMPLES / "audio.mp4")
    lines = [*OPENED, f"call add {PICTURES}: done", f"call add {SOUND}: done",
             *append(0, 0, 1627, heard=["updatestart"]), *append(1, 0, 692, blob=1),
             *append(1, 692, 4232, blob=1, heard=["updatestart"]),
             "event buffer 0 update", "event buffer 0 updateend",
             *append(0, 1627, 887, heard=["updatestart", "update", "updateend"]),
             "event buffer 1 update", "event buffer 1 updateend"]
    script, _ = replayed(lines, PLAIN, audio)
    steps = script["steps"]
    first, second = steps.index("append 1 1 0 692"), steps.index("append 1 1 692 4232")
    assert {step for step in steps[first + 1:second] if step.startswith("work")} == {"work 1"}, steps
    third = steps.index("append 0 0 1627 887")
    assert {step for step in steps[second + 1:third] if step.startswith("work")} == {"work 0"}, steps
    assert steps[-1] == "drain"


def test_where_nothing_is_left_steps_are_a_drain():
    lines = [*OPENED, f"call add {PICTURES}: done", *append(0, 0, 734), *append(0, 734, 893)]
    script, _ = replayed(lines, PLAIN)
    assert script["steps"] == ["attach", "drain", f"add {PICTURES}", "drain", "append 0 0 0 734", "drain",
                               "append 0 0 734 893", "drain"], script["steps"]


def test_a_call_at_once_stands_at_once():
    lines = [*OPENED, f"call add {PICTURES}: done", *append(0, 0, 734), *append(0, 734, 893, heard=[]),
             "call abort 0: done", "event buffer 0 updatestart", "event buffer 0 abort", "event buffer 0 updateend"]
    script, _ = replayed(lines, PLAIN)
    place = script["steps"].index("abort 0")
    assert script["steps"][place - 1] == "append 0 0 734 893", script["steps"]


def test_a_page_that_looks_at_updating():
    """An append that was done, before the updateend of the one before was heard, and an abort that ended nothing."""
    head = [*OPENED, f"call add {PICTURES}: done"]
    lines = [*head, *append(0, 0, 734, heard=["updatestart"]), *append(0, 734, 893, heard=[]),
             "event buffer 0 update", "event buffer 0 updateend", "event buffer 0 updatestart", "event buffer 0 update",
             "event buffer 0 updateend", "call buffered 0: ranges [0,141120000000)"]
    assert not [line for line in differences(lines, PLAIN) if line.startswith(("answer", "ranges"))]
    lines = [*head, *append(0, 0, 1627, heard=["updatestart"]), "call abort 0: done", "event buffer 0 update",
             "event buffer 0 updateend", "call buffered 0: ranges [0,141120000000)"]
    found = differences(lines, PLAIN)
    assert not [line for line in found if "abort" in line or line.startswith("ranges")], found


def test_a_read_while_work_runs():
    """The work goes on until what the browser read is there, and no further."""
    head = [*OPENED, f"call add {PICTURES}: done", *append(0, 0, 734)]
    part = 10 * 141_120_000_000 // 25
    lines = [*head, *append(0, 734, 893, heard=["updatestart"]), f"call buffered 0: ranges [0,{part})",
             "call elementbuffered: ranges [0,141120000000)",
             "call append 0 0 0 734: refused InvalidStateError", "event buffer 0 update", "event buffer 0 updateend"]
    found = differences(lines, PLAIN)
    assert not [line for line in found if line.startswith(("ranges", "answer"))], found


def test_what_the_session_never_fires_is_not_waited_for():
    """An event of the browser alone: what runs is worked once for it, and the calls behind stand as before."""
    lines = [*OPENED, f"call add {PICTURES}: done", *append(0, 0, 734), "event element ended", "event buffer 0 error",
             *append(0, 734, 893), *append(0, 1627, 887, heard=[]), "call abort 0: done"]
    script, _ = replayed(lines, PLAIN)
    place = script["steps"].index("abort 0")
    assert script["steps"][place - 1] == "append 0 0 1627 887", script["steps"]


def test_play_before_its_own_call():
    lines = [*OPENED, f"call add {PICTURES}: done", *append(0, 0, 1627), "event element play", "call play: done",
             "event element playing", "call pause: done", "event element timeupdate", "event element pause"]
    found = [line for line in differences(lines, PLAIN) if " play" in line or "pause" in line]
    assert found == [], found


def test_behind_a_call_events_are_waited_for_again():
    lines = [*OPENED, f"call add {PICTURES}: done", *append(0, 0, 3330), "call endofstream: done", "call play: done",
             "event element ended", "call advance 705600000000: done", "call seek 0: done"]
    script, _ = replayed(lines, PLAIN)
    steps = script["steps"]
    place = steps.index("seek 0")
    assert "drain" in steps[place - 1:place] or "element" in steps[steps.index("advance 705600000000"):place], steps


def quota_lines(count):
    """A page that appends so many groups of large.mp4, the last of which is refused, and goes on."""
    groups = [(762, 179973), (180735, 199975), (380710, 199975)]
    lines = [*OPENED, f"call add {PICTURES}: done", *append(0, 0, 762)]
    for i in range(count):
        lines += [f"call offset 0 {i // 3 * 3 * 141_120_000_000}: done", *append(0, *groups[i % 3])]
    return [*lines, f"call append 0 0 {groups[count % 3][0]} {groups[count % 3][1]}: refused QuotaExceededError"]


def test_a_quota_by_which_the_same_append_is_refused():
    """One group, which holds the position, is all there is: the program has nothing to evict."""
    lines = [*quota_lines(1), "call buffered 0: ranges [0,141120000000)"]
    script, done = replayed(lines, LARGE)
    assert script["quota"] > 170_000 and not done.left_out, script
    assert "append 0 0 180735 199975" in script["steps"]
    assert not [line for line in differences(lines, LARGE) if line.startswith(("answer", "ranges"))]


def test_an_append_that_no_quota_refuses():
    """The program makes room ahead of the position: the append is a comment, and what follows is as without it."""
    lines = [*quota_lines(5), "call buffered 0: ranges [0,705600000000)"]
    script, done = replayed(lines, LARGE)
    assert "quota" not in script and len(done.left_out) == 1, script
    line = "append 0 0 380710 199975"
    assert script["steps"].count(line) == 1, script["steps"]
    assert f"# left out, refused by the quota of the browser: {line}" in done.script
    assert f'docs/BROWSERS.md, "The quota"): {line}' in done.browser
    found = [line for line in differences(lines, LARGE) if line.startswith(("answer", "ranges", "only mseplay: call"))]
    assert not found, found


def test_comments_and_far_times_stay():
    far = 10 ** 20 * 141_120_000_000
    lines = [*OPENED, f"call duration {far}: done"]
    steps = ['"attach",', '"drain",', "# task 1, 0.5 s", f'"duration {10 ** 20}/1",', "# the end"]
    script, done = replayed(lines, comments=steps)
    assert f"duration {10 ** 20}/1" in script["steps"]
    place = done.script.splitlines().index(f'  "duration {10 ** 20}/1",')
    assert done.script.splitlines()[place - 1] == "  # task 1, 0.5 s" and "# the end" in done.script
    assert done.script.startswith(HEAD)


def test_node_and_the_library_do_the_same():
    """Both kinds of sessions, where both are here."""
    kinds = [live.Node, live.Library]
    try:
        engines = [kind() for kind in kinds]
    except live.NoEngine as missing:
        raise kit.Skip(str(missing)) from missing
    told = []
    for engine_of in engines:
        session = engine_of.open([ROWS.joinpath("plain.mp4"), b"\0\0\0\x08free"], {"quota": 1000})
        steps = []
        for line in ["attach", f"add {PICTURES}", "append 0 0", "fire", "fire", "fire", *["work 0"] * 5, "append 0 1"]:
            steps.append((session.step(line), session.next, session.ranges(), session.buffer(0)))
        told.append((steps, session.buffer(3)))
        session.close()
    assert told[0] == told[1]


def test_command():
    engine()
    lines = [*OPENED, f"call add {PICTURES}: done", *append(0, 0, 734)]
    with tempfile.TemporaryDirectory() as folder:
        path = Path(folder, "recording.zip")
        with zipfile.ZipFile(path, "w") as archive:
            archive.writestr("recording.toml", f"{HEAD}blobs = ['file buffer-0.bin']\nsteps = [\n]\n")
            archive.writestr("browser.txt", "\n".join(lines))
            archive.writestr("buffer-0.bin", ROWS.joinpath("plain.mp4").read_bytes())
        with contextlib.redirect_stdout(io.StringIO()) as out:
            assert replay.main([str(path), str(Path(folder, "out"))]) == 0
        assert out.getvalue().strip().endswith("replayed.toml")
        kit.program()
        done = kit.run("play", "replayed.toml", folder=Path(folder, "out"))
        assert done.status == 0 and re.search(r"^track 0 1 video", done.stdout, re.M), done.stdout
        with contextlib.redirect_stderr(io.StringIO()) as problems:
            assert replay.main([str(path) + "x", folder]) == 2 and replay.main([]) == 2
        assert "is not replayed" in problems.getvalue()

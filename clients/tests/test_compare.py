"""compare.py on texts, without a browser; and that its table of known differences stands on docs/BROWSERS.md."""

import contextlib
import io
import os
import re
import subprocess
import sys
import tempfile
import tomllib
from pathlib import Path

import kit

sys.path.insert(0, str(kit.CLIENTS))

import compare  # noqa: E402
import known  # noqa: E402
import scripts  # noqa: E402

ROWS = kit.CLIENTS / "rows"
PAGE = (kit.REPOSITORY / "docs" / "BROWSERS.md").read_text(encoding="utf-8")
AGENT = "# Mozilla/5.0 Chrome/156.0.0.0 Safari/537.36"


def as_browser(text):
    """What a browser would tell that does as the program does."""
    lines = [re.sub(r"^(buffer \d+) .* (buffered .*)$", r"\1 \2", line) for line in text.splitlines()
             if not line.startswith(("track", "fault"))]
    return [AGENT, *lines]


def printed(name):
    kit.program()
    return kit.run("play", name).stdout


def lone(name, lines):
    """The differences of a text to what the program prints of a script of examples/README.md: those without a row, and the rows."""
    _, _, found = compare.compared(kit.EXAMPLES / name, printed(name), "\n".join(lines) + "\n")
    return [compare.told(one) for one in found if not one.row], {one.row for one in found if one.row}


def test_a_browser_that_does_the_same():
    scripts = sorted(path.name for path in kit.EXAMPLES.glob("*.toml"))
    for name in scripts:
        assert lone(name, as_browser(printed(name))) == ([], set()), name
    return f"{len(scripts)} scripts"


def replaced(lines, old, new):
    assert any(old in line for line in lines), old
    return [line.replace(old, new) for line in lines]


def test_each_kind_of_difference_is_found():
    lines = as_browser(printed("two-buffers.toml"))
    place = lines.index("event buffer 0 update")
    for other, words in [
        (lines[:place] + lines[place + 1:], "only mseplay: event buffer 0 update"),
        ([*lines[:place], lines[place], *lines[place:]], "only browser: event buffer 0 update"),
        (replaced(lines, "call play: done", "call play: refused NotSupportedError"), "answer: "),
        (replaced(lines, "error 0", "error 3"), "error: "),
        (replaced(lines, "call elementbuffered: ranges [0,", "call elementbuffered: ranges [5000000,"), "ranges: "),
        (replaced(lines, "duration 426370560000", "duration 426390560000"), "duration: "),
        (replaced(lines, "buffer 1 buffered [0,426370560000)", "buffer 1 buffered none"), "ranges: "),
        ([line for line in lines if line != "call elementbuffered: ranges [0,14112000000)"], "only mseplay: call"),
    ]:
        found, rows = lone("two-buffers.toml", other)
        assert any(one.startswith(words) for one in found), (words, found, rows)


def test_order_within_a_target_and_among_targets():
    lines = as_browser(printed("pieces.toml"))
    one, other = lines.index("event element loadedmetadata"), lines.index("event buffer 0 update")
    among = list(lines)
    among[one], among[other] = among[other], among[one]
    assert lone("pieces.toml", among) == ([], set())
    first, last = lines.index("event buffer 0 update"), lines.index("event buffer 0 updateend")
    within = list(lines)
    within[first], within[last] = within[last], within[first]
    found, _ = lone("pieces.toml", within)
    assert [one.partition(":")[0] for one in found] == ["at another place among the lines of its target"], found


def test_three_microseconds():
    lines = as_browser(printed("two-buffers.toml"))
    for ticks, is_same in [(141120 * 3, True), (-141120 * 3, True), (141120 * 4, False)]:
        other = replaced(lines, "426370560000", str(426370560000 + ticks))
        assert (lone("two-buffers.toml", other)[0] == []) == is_same, ticks


def test_levels_are_no_times():
    lines = as_browser(printed("stall.toml"))
    found, _ = lone("stall.toml", replaced(lines, "level 2", "level 1"))
    assert found and all(one.startswith("level: ") for one in found), found


def test_a_row_is_of_its_browser_alone():
    """What Chromium does by a row is no known difference of Firefox, nor of a browser that no row speaks of."""
    lines = replaced(as_browser(printed("late-offset.toml")), "level 3", "level 4")
    assert lone("late-offset.toml", lines) == ([], {"Levels."})
    for agent in ("# Mozilla/5.0 Gecko/20100101 Firefox/153.0", "# Another"):
        found, rows = lone("late-offset.toml", [agent, *lines[1:]])
        assert found and not rows, (agent, rows)


def test_what_ends_a_comparison():
    """Behind a type that the browser refuses nothing is compared but types."""
    lines = as_browser(printed("types.toml"))
    refused = replaced(lines, "call add video/mp4: done", "call add video/mp4: refused NotSupportedError")
    assert lone("types.toml", refused)[0] == []
    refused = replaced(refused, "call add audio/aac: done", "call add audio/aac: refused NotSupportedError")
    found, _ = lone("types.toml", refused)
    assert len(found) == 1 and "add audio/aac" in found[0], found


def is_on_page(words):
    return f"**{words}" in PAGE or f"### {words}\n" in PAGE or f"| {words}" in PAGE or f"{words}" in PAGE[PAGE.index("## How much agrees"):]


def test_the_table_stands_on_the_page():
    rows = tomllib.loads((ROWS / "rows.toml").read_text())["rows"]
    for words in {entry.row for entry in known.KNOWN} | {row["row"] for row in rows}:
        assert is_on_page(words), f"docs/BROWSERS.md has no row {words!r}"
    assert {row["script"] for row in rows} == {path.name for path in ROWS.glob("*.toml")} - {"rows.toml"}
    for entry in known.KNOWN:
        assert set(entry.browsers) <= set(known.BOTH)
        tried = {name for row in rows if row["row"] == entry.row for name in row["differs"]}
        assert tried, f"no script shows {entry.row!r}"
    named = set(re.findall(r"`rows/([^`]+)`", PAGE)) - {"NAME"}
    assert named <= {path.name for path in ROWS.iterdir()}, named
    return f"{len(known.KNOWN)} entries, {len(rows)} rows with a script"


def test_scripts_of_rows_are_played_by_the_program():
    kit.program()
    for script in sorted(ROWS.glob("*.toml")):
        if script.name != "rows.toml":
            done = kit.run("play", script.name, folder=ROWS)
            assert done.status == 0, (script.name, done.stdout)


def told(words):
    """The status and what is printed, errors too."""
    out = io.StringIO()
    with contextlib.redirect_stdout(out), contextlib.redirect_stderr(out):
        try:
            return compare.main([str(word) for word in words]), out.getvalue()
        except compare.NotCompared as problem:
            return 2, str(problem)


def test_status_and_sentences():
    kit.program()
    script = kit.EXAMPLES / "late-offset.toml"
    with tempfile.TemporaryDirectory() as folder:
        browser = Path(folder, "browser.txt")
        lines = as_browser(printed(script.name))
        browser.write_text("\n".join(lines))
        assert told([script, browser])[0] == 0
        browser.write_text("\n".join(replaced(lines, "level 3", "level 4")))
        status, text = told([script, browser])
        assert status == 0 and 'a docs/BROWSERS.md, "Levels.": 1 difference' in text, text
        browser.write_text("\n".join(replaced(lines, "error 0", "error 3")))
        status, text = told([script, browser])
        assert status == 1 and "! no row of docs/BROWSERS.md tells of this\n  error: " in text, text
        for words, sentence in [
            ([], "compare.py SCRIPT BROWSER"), (["--help"], "compare.py SCRIPT BROWSER"),
            ([script, folder + "/nothing"], "no file"), ([folder + "/nothing.toml", browser], "no script at"),
            ([browser], "is no archive of record.js"),
        ]:
            status, text = told(words)
            assert status == 2 and sentence in text, (words, text)
        bad = Path(folder, "bad.toml")
        bad.write_text('steps = ["atach"]')
        status, text = told([bad, browser])
        assert status == 2 and "error: script step 0" in text, text


@contextlib.contextmanager
def called_in(folder):
    before = os.getcwd()
    os.chdir(folder)
    try:
        yield
    finally:
        os.chdir(before)


def test_where_the_files_of_a_script_are_found():
    """In the folder of the call, as the program does; else beside the script, which is said; else it is a sentence."""
    kit.program()
    plain, late = ((ROWS / name).read_bytes() for name in ("plain.mp4", "late.mp4"))
    script_text = 'blobs = ["file media/one.mp4", "file ../two.mp4"]\nsteps = ["attach", "add video/mp4", "append 0 0"]\n'
    with tempfile.TemporaryDirectory() as top:
        call, beside = Path(top, "here", "call"), Path(top, "there", "beside")
        for folder in (call, beside):
            (folder / "media").mkdir(parents=True)
        (call / "media/one.mp4").write_bytes(plain)
        (beside / "media/one.mp4").write_bytes(late)
        (beside.parent / "two.mp4").write_bytes(late)
        script, browser = beside / "script.toml", beside / "browser.txt"
        script.write_text(script_text)
        with called_in(call):
            read = scripts.read(script)
            assert read.blobs() == [plain, late]
            assert [sentence.partition(":")[0] for sentence in read.took] == [
                "media/one.mp4 is that of this folder", "../two.mp4 is that beside the script"], read.took
            browser.write_text("\n".join(as_browser(scripts.printed(read))))
            status, text = told([script, browser])
            assert status == 0 and "# ../two.mp4 is that beside the script: " in text, text
        with called_in(beside):
            assert scripts.read(script).blobs() == [late, late] and scripts.read(script).took == []
        (beside.parent / "two.mp4").unlink()
        with called_in(call):
            status, text = told([script, browser])
        assert status == 2 and text.startswith("no file ../two.mp4, neither in ") and "\n" not in text.strip(), text


def test_a_missing_file_of_a_script_that_is_played():
    with tempfile.TemporaryDirectory() as folder:
        script = Path(folder, "script.toml")
        script.write_text('blobs = ["file nothing.mp4"]\nsteps = ["attach"]\n')
        done = subprocess.run([sys.executable, kit.CLIENTS / "browsers.py", "--play", script], capture_output=True, text=True,
                              cwd=folder, timeout=300)
    assert done.returncode == 2 and done.stderr.startswith("no file nothing.mp4, neither in "), done.stderr
    assert "Traceback" not in done.stderr


def test_loose_events_anchor_nothing():
    """`timeupdate` that comes otherwise changes nothing of how the other events are laid side by side."""
    lines = as_browser(printed("stall.toml"))
    place = lines.index("event element canplay")
    other = [*lines[:place], "event element timeupdate", "event element waiting", "event element timeupdate", *lines[place:]]
    _, pairs, _ = compare.compared(kit.EXAMPLES / "stall.toml", printed("stall.toml"), "\n".join(other) + "\n")
    kept = compare.read_lines(printed("stall.toml"))
    theirs = compare.read_lines("\n".join(other) + "\n")
    for line in kept:
        if line.kind == "event" and line.type not in compare.LOOSE:
            assert theirs[pairs[line.index].index].text == line.text, line
    return f"{len(pairs)} pairs"

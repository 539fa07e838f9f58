"""play.html: scripts on the MediaSource of Chromium, and the words in which it tells them."""

import base64
import json
import re
import subprocess
import sys
import tempfile
from pathlib import Path

import kit

sys.path.insert(0, str(kit.CLIENTS))

import browsers  # noqa: E402
import compare  # noqa: E402

PAGE = kit.CLIENTS / "play.html"


def played(page, script, files=(), **options):
    """What the page tells of a script, given as text."""
    packed = {"script": script, "options": options,
              "files": {Path(name).name: base64.b64encode(Path(name).read_bytes()).decode() for name in files}}
    return page.call("packed => playPacked(packed)", json.dumps(packed), timeout=300)


def problem(page, script):
    """The sentence by which the page refuses a script."""
    packed = json.dumps({"script": script, "files": {}, "options": {}})
    return page.call("packed => playPacked(packed).then(() => 'played', (error) => error.message)", packed)


def program_prints(script):
    """What the program prints of a script, given as text."""
    with tempfile.TemporaryDirectory() as folder:
        Path(folder, "script.toml").write_text(script, encoding="utf-8")
        return kit.run("play", "script.toml", folder=folder).stdout


def test_scripts_of_examples():
    """Each script of examples/README.md plays, and differs from the program in what docs/BROWSERS.md tells of alone."""
    kit.program()
    page = kit.open_page(PAGE)
    scripts = sorted(kit.EXAMPLES.glob("*.toml"))
    refused = []
    for script in scripts:
        told = page.call("packed => playPacked(packed).catch((error) => error.message)", browsers.packed(script),
                         timeout=300)
        if told.startswith("refused"):
            refused.append(script.name)
            continue
        run, _, found = compare.compared(script, kit.run("play", script.name).stdout, told)
        lone = [compare.told(one) for one in found if not one.row]
        assert lone == [], f"{script.name}: {lone}"
    assert page.errors == [], page.errors
    page.close()
    return f"{len(scripts)} scripts, {len(refused)} refused by name"


def test_what_has_no_counterpart_is_refused_by_name():
    page = kit.open_page(PAGE)
    text = problem(page, """steps = ["attach", "fire", "work 3", "element", "attach"]
        [[rules]]
        listener = 0
        on = "element play"
        calls = ["advance 1/1"]""")
    assert text.splitlines()[0] == "refused, nothing was run:"
    for name in ("step 1, fire: ", "step 2, work 3: ", "step 3, element: ", "rule 0, advance: ", "a second attach"):
        assert name in text, text
    page.close()


FAULTS = """step = ["attach"]
quota = 0
drain = "5"
gap = -1
blobs = "file x"
steps = "attach"
steps = ["atach"]
steps = ["attach "]
steps = ["append 0"]
steps = ["work"]
steps = ["seek 01"]
steps = ["seek 1/0"]
steps = ["seek 1/4294967296"]
steps = ["seek -0"]
steps = ["seek 1234567890123456789012345"]
steps = ["offset 0 999999999999999999999999/1"]
steps = ["mode 0 other"]
steps = ["append 4294967296 0"]
steps = ["append 0 0 0 9223372036854775808"]
steps = ["add  video/mp4"]
steps = ["add vidéo/mp4"]
blobs = ["hex 0"]
blobs = ["file"]
blobs = ["file "]
blobs = ["HEX 00"]
rules = [{}]
rules = [{listener = 16, on = "element play", calls = ["play"]}]
rules = [{listener = 0, on = "source update", calls = ["play"]}]
rules = [{listener = 0, on = "element play", calls = ["drain"]}]
rules = [{listener = 0, on = "element play", calls = []}]
rules = [{listener = 0, on = "element play", calls = ["play"], times = 0}]
rules = [{listener = 0, on = "element play", calls = ["play"], repeat = 1}]
rules = [{listener = 0, on = "element play", calls = ["play"], extra = 1}]
rules = [{listener = 0, on = "buffer 07 update", calls = ["play"]}]
"""


def test_faults_of_scripts_are_those_of_the_program():
    kit.program()
    page = kit.open_page(PAGE)
    for script in FAULTS.splitlines():
        ours, theirs = program_prints(script).strip(), problem(page, script)
        if script == 'steps = ["add  video/mp4"]':
            assert theirs == "played" and ours.startswith("call add"), (ours, theirs)
        else:
            assert theirs == ours, f"{script}: {ours!r} and {theirs!r}"
    page.close()
    return f"{len(FAULTS.splitlines())} scripts"


def test_toml_that_is_read_and_that_is_not():
    page = kit.open_page(PAGE)

    def read(text):
        return page.call("text => { try { return new TomlReader(text).read(); } catch (error) { return error.message; } }", text)

    assert read("""# all that a script needs
        quota = 1_000 # a number
        "drain" = 0x10
        blobs = [
          "a \\"b\\" \\u00e9 \\\\", # a text
          'c:\\d',
        ]
        [[rules]]
        repeat = true
        calls = ["play"]
        [[rules]]
        """) == {"quota": 1000, "drain": 16, "blobs": ['a "b" é \\', "c:\\d"],
                 "rules": [{"repeat": True, "calls": ["play"]}, {}]}
    for text, words in {
        "quota = 1.5": "line 1: 1.5 is no whole number",
        "\nsteps = [": "line 2",
        "a = 1\na = 2": "line 2: the key a stands twice",
        "[table]": "line 1: a table [NAME]",
        'a = """x"""': "texts of several lines",
        "a.b = 1": "keys with a full stop",
        "a = 1 b = 2": "the end of the line is missing",
        'a = "\\q"': "there is no escape \\q",
        'a = "x': "a text does not end in its line",
    }.items():
        assert words in read(text), (text, read(text))
    page.close()


def test_times_and_lines_are_those_of_the_program():
    kit.program()
    lines = ["seek 1001/30000", "seek -1/44101", "seek 1/44101", "live 0 30/1", "duration inf", "duration nan",
             "remove 0 200/1000 inf", "offset 0 -3/2", "advance 999999999999/7", "changetype 0", "add",
             'add video/mp4; codecs="avc1.42E01E"', "append 0 0 5 6", "mode 7 sequence", "endofstream decode"]
    printed = program_prints(f"steps = {json.dumps(lines)}").splitlines()
    page = kit.open_page(PAGE)
    for line, ours in zip(lines, printed):
        theirs = page.call("line => printedLine(readLine(line, true))", line)
        assert ours.startswith(f"call {theirs}: "), (line, ours, theirs)
    page.close()


def test_ticks_come_back_from_a_double():
    page = kit.open_page(PAGE)
    ticks = [0, 1, -1, 3010560000, 141120000001, 42336000000, 141120000000 * 3600 + 7, -11289600000]
    back = page.call("list => list.map((ticks) => printedTime(secondsOf(BigInt(ticks))))", ticks)
    assert back == [str(number) for number in ticks], back
    page.close()


def test_types_without_codecs():
    """A type that the browser refuses for want of codecs is given those of the file, or refused, as a person asks."""
    page = kit.open_page(PAGE)
    file = kit.CLIENTS / "rows" / "plain.mp4"
    script = 'blobs = ["file plain.mp4"]\nsteps = ["attach", "add video/mp4", "append 0 0", "drain", "buffered 0"]'
    told = played(page, script, [file])
    assert '# video/mp4 is refused here, so the browser was given video/mp4; codecs="avc1.42c00a"' in told, told
    assert "call add video/mp4: done" in told and "call buffered 0: ranges [0,423360000000)" in told, told
    told = played(page, script, [file], codecs=False)
    assert "call add video/mp4: refused NotSupportedError" in told, told
    assert "call append 0 0: refused NoSuchBuffer" in told, told
    page.close()


def test_listeners_and_their_limits():
    kit.program()
    page = kit.open_page(PAGE)
    rules = """
        [[rules]]
        listener = 3
        on = "source sourceopen"
        calls = ["endofstream"]
        [[rules]]
        listener = 1
        on = "source sourceopen"
        calls = ["duration 1/1", "append 9 0"]
        """
    told = played(page, 'steps = ["attach", "drain"]' + rules).splitlines()
    assert told[3:6] == ["listener 1 duration 141120000000: done", "listener 1 append 9 0: refused NoSuchBuffer",
                         "listener 3 endofstream: done"], told
    for more in ("", "drain = 20\n"):
        script = more + """steps = ["attach", "drain"]
            [[rules]]
            listener = 2
            on = "source sourceopen"
            repeat = true
            calls = ["state", "play"]"""
        ours, theirs = program_prints(script).splitlines(), played(page, script).splitlines()
        assert theirs[-1] == ours[-1] and ours[-1].startswith("error: "), (ours[-1], theirs[-1])
        assert len([line for line in theirs if line.startswith("listener")]) == \
            len([line for line in ours if line.startswith("listener")])
    page.close()


def test_files_are_chosen_or_dropped():
    page = kit.open_page(PAGE)
    folder = kit.EXAMPLES
    page.choose("#files", folder / "window.toml")
    page.wait_for("!run.disabled")
    page.click("#run")
    page.wait_for("problem.textContent !== ''")
    assert page.evaluate("problem.textContent") == "error: no file audio.mp4"
    page.drop("#drop", folder / "audio.mp4")
    page.wait_for("have.textContent.includes('audio.mp4')")
    page.click("#run")
    page.wait_for("!save.hidden")
    text = page.evaluate("lines.textContent")
    assert text.startswith("# Mozilla") and "\ncall append 0 0: done\n" in text and "\nbuffer 0 buffered [" in text, text
    assert page.evaluate("problem.textContent") == ""
    assert page.errors == [], page.errors
    page.close()


def test_command_that_plays_one_script():
    kit.program()
    kit.tool("chromium", "chromium-browser", "google-chrome", package="chromium")
    done = subprocess.run([sys.executable, kit.CLIENTS / "browsers.py", "--play", kit.EXAMPLES / "window.toml"],
                          capture_output=True, text=True, timeout=600)
    assert done.returncode == 0, done.stdout + done.stderr
    assert re.search(r'docs/BROWSERS.md, "Append windows on sound."', done.stdout), done.stdout


def test_rows_on_each_browser():
    """Every row that can be tried shows on each browser that is driven what it tells; half a minute each, on a machine
    that does nothing else."""
    kit.program()
    kit.tool("chromium", "chromium-browser", "google-chrome", "firefox-esr", "firefox", package="chromium")
    done = subprocess.run([sys.executable, kit.CLIENTS / "browsers.py"], capture_output=True, text=True, timeout=3600)
    changed = [line for line in done.stdout.splitlines() if not line.startswith("as told")]
    assert done.returncode == 0, "\n".join(changed) + done.stderr
    return "; ".join(changed)

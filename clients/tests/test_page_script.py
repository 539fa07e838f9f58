"""mseplay.html and scripts: the editor, what is taken along, and recordings."""

import base64
import json
import tempfile
import tomllib
import zipfile
import zlib
from pathlib import Path

import kit
from test_page_media import engine, open_media
from test_page_text import SHOWN, VIEW, snapshot

EXAMPLES = ["pieces", "overlap", "eviction", "changetype", "end", "seek-into-a-gap"]
SAYS = "document.querySelector('#editor-says').innerText"
LINES = "mseplay.page.story.lines.map(line => line.text)"


def open_script(page, *paths):
    engine()
    page.evaluate("scrollTo(0, 0)")
    page.drop("header", *paths)
    page.wait_for(f"{SHOWN} && !document.querySelector('#editor').hidden && mseplay.shown.script?.told !== ''")


def type_script(page, text):
    """Types a script in place of what is there."""
    page.evaluate("document.querySelector('#editor-text').select()")
    page.type(text)


def test_examples_to_begin_with():
    """Each example of the editor runs without an error, and says in its first line what it shows."""
    engine()
    page = kit.open_page(VIEW)
    page.click("#write")
    page.wait_for(f"{SHOWN} && mseplay.shown.script")
    for name in EXAMPLES:
        page.call("name => { const list = document.querySelector('#editor-examples'); list.value = name; list.dispatchEvent(new Event('change')); }", name)
        page.wait_for(f"document.title.startsWith('{name}.toml') && mseplay.shown.script?.told !== ''")
        script = tomllib.loads(page.evaluate("document.querySelector('#editor-text').value"))
        lines = page.evaluate(LINES)
        calls = [line for line in lines if line.startswith("call ")]
        assert len(calls) == sum(step not in ("drain", "fire") for step in script["steps"]), name
        assert not [line for line in calls if "NoSuch" in line], calls
        assert page.evaluate("document.querySelector('#editor-says').className") == ""
    assert not page.errors, page.errors
    page.close()


def test_run_as_it_is_typed():
    """A change is run without a button, and an error has its line; what was shown before stays."""
    page = kit.open_page(VIEW)
    open_script(page, kit.EXAMPLES / "pieces.toml", kit.EXAMPLES / "plain.mp4")
    assert page.evaluate(LINES) == (kit.EXAMPLES / "pieces.txt").read_text().splitlines()
    text = (kit.EXAMPLES / "pieces.toml").read_text()
    type_script(page, text.replace('"buffered 0",\n]', '"buffered 0",\n  "seekable",\n]'))
    page.wait_for(f"({LINES}).some(line => line.startsWith('call seekable'))")
    before = page.evaluate(LINES)
    line = text.split("\n").index('  "append 0 0 740 11",') + 1
    for wrong, says in [('"apend 0 0 740 11"', "apend is no call and no step; is it append?"), ('"seek 1.5"', "a time is ticks, n/scale, inf or nan")]:
        type_script(page, text.replace('"append 0 0 740 11"', wrong))
        page.wait_for(f"{SAYS}.startsWith('✕ Line {line}: ')")
        page.wait_for(f"{SAYS}.includes({json.dumps(says)})")
        assert page.evaluate("document.querySelector('#editor-numbers .bad').textContent.trim()") == str(line)
        assert page.evaluate(LINES) == before
    type_script(page, text.replace("plain.mp4", "absent.mp4"))
    page.wait_for(f"{SAYS}.includes('Line 2: the file absent.mp4 is not here')")
    with tempfile.TemporaryDirectory() as folder:
        path = Path(folder) / "absent.mp4"
        path.write_bytes((kit.EXAMPLES / "plain.mp4").read_bytes())
        page.drop("header", path)
        page.wait_for("document.querySelector('#editor-says').className === ''")
    type_script(page, text.replace('"buffered 0",\n]', '"seek 5",\n]'))
    page.wait_for(f"{SAYS}.includes('5 is 5 ticks, less than a microsecond; 5 seconds are 5/1')")
    assert not page.errors, page.errors
    page.close()


def test_a_long_script_is_stopped():
    """A script that takes long has a bar and a button, and is stopped where another is typed."""
    page = kit.open_page(VIEW)
    open_script(page, kit.EXAMPLES / "pieces.toml", kit.EXAMPLES / "plain.mp4")
    text = (kit.EXAMPLES / "pieces.toml").read_text()
    long = 'steps = [\n  "attach",\n  "add video/mp4",\n  "append 0 0 0 0",\n  "drain",\n]\ndrain = 1000000\nblobs = ["hex "]\n'
    rule = '[[rules]]\nlistener = 0\non = "buffer 0 updateend"\ntimes = 1000000\ncalls = ["append 0 0 0 0"]\n'
    type_script(page, long + rule)
    page.wait_for("!document.querySelector('#busy').hidden", 20)
    page.evaluate("document.querySelector('#stop').click()")
    page.wait_for(f"{SAYS}.includes('The script was stopped')", 20)
    type_script(page, long + rule + "# more\n")
    page.wait_for("!document.querySelector('#busy').hidden", 20)
    type_script(page, text)
    page.wait_for("document.querySelector('#editor-says').className === ''", 20)
    assert page.evaluate(LINES) == (kit.EXAMPLES / "pieces.txt").read_text().splitlines()
    assert page.evaluate("document.querySelector('#busy').hidden")
    assert not page.errors, page.errors
    page.close()


def test_steps_forward_and_back():
    """The slider and the buttons go over the steps of a script."""
    page = kit.open_page(VIEW)
    open_script(page, kit.EXAMPLES / "stall.toml", kit.EXAMPLES / "gap.mp4")
    lines = (kit.EXAMPLES / "stall.txt").read_text().splitlines()
    assert page.evaluate(LINES) == lines
    calls = [at + 1 for at, line in enumerate(lines) if line.startswith("call ")]
    page.evaluate("mseplay.goTo(0)")
    page.wait_for("document.querySelector('.line.chosen .number').textContent === '1'")
    for at in calls[1:4]:
        page.click("#behind")
        page.wait_for(f"document.querySelector('.line.chosen .number').textContent === '{at}'")
    page.click("#before")
    page.wait_for(f"document.querySelector('.line.chosen .number').textContent === '{calls[2]}'")
    page.close()


def downloads(page, folder):
    page.browser.ask("Browser.setDownloadBehavior", behavior="allow", downloadPath=str(folder), browserContextId=page.context)


def saved(page, folder, name):
    path = Path(folder) / name
    page.click("#save")
    return kit.wait_until(lambda: path.exists() and zipfile.is_zipfile(path) and path, f"{name}", 30)


def test_media_are_taken_along():
    """What was done with files is a script with these files: opened again, it shows the same lines and bars."""
    page = kit.open_page(VIEW)
    with tempfile.TemporaryDirectory() as folder:
        downloads(page, folder)
        for name in ["gap.mp4", "classic.mp4"]:
            open_media(page, kit.EXAMPLES / name)
            rows, lines = snapshot(page)["rows"], page.evaluate(LINES)
            path = saved(page, folder, "script.zip")
            with zipfile.ZipFile(path) as archive:
                assert archive.testzip() is None
                script = tomllib.loads(archive.read("script.toml").decode())
                names = [blob.removeprefix("file ") for blob in script["blobs"]]
                assert sorted([*names, "script.toml"]) == sorted(archive.namelist())
                if name == "gap.mp4":
                    assert archive.read("gap.mp4") == (kit.EXAMPLES / "gap.mp4").read_bytes()
                else:
                    assert archive.read(names[0]) == (kit.EXAMPLES / "plain.mp4").read_bytes()
            open_script(page, path)
            assert page.evaluate(LINES) == lines, name
            assert snapshot(page)["rows"] == rows, name
            path.unlink()
            page.go(VIEW)
    page.close()


def test_saved_script_is_played_by_the_program():
    kit.program()
    page = kit.open_page(VIEW)
    with tempfile.TemporaryDirectory() as folder:
        downloads(page, folder)
        open_media(page, kit.EXAMPLES / "gap.mp4")
        lines = page.evaluate(LINES)
        with zipfile.ZipFile(saved(page, folder, "script.zip")) as archive:
            archive.extractall(folder)
        assert kit.run("play", "script.toml", folder=folder).stdout.splitlines() == lines
    page.close()


def test_recording():
    """A .zip of record.js as it is, stored or deflated: its script is played, and what the browser had stands beside it."""
    engine()
    text = (kit.EXAMPLES / "gap.toml").read_text().replace("file plain.mp4", "file buffer-0.bin")
    told = (kit.EXAMPLES / "gap.txt").read_text().splitlines()
    calls = [line for line in told if line.startswith(("call ", "event "))]
    browser = "\n".join([*calls, "duration inf", "buffer 0 buffered [0,29635200000)"]) + "\n"
    page = kit.open_page(VIEW)
    for method in (zipfile.ZIP_STORED, zipfile.ZIP_DEFLATED):
        with tempfile.TemporaryDirectory() as folder:
            path = Path(folder) / "recording.zip"
            with zipfile.ZipFile(path, "w", method) as archive:
                archive.writestr("recording.toml", text)
                archive.writestr("browser.txt", browser)
                archive.writestr("buffer-0.bin", file_of(kit.EXAMPLES / "gap.toml"))
            page.go(VIEW)
            open_script(page, path)
            assert page.evaluate(LINES) == told
            rows = {row["key"]: row for row in snapshot(page)["rows"]}
            assert [(a, b) for a, b, *_ in rows["browser buffer 0"]["bars"]] == [("0", "29635200000")], list(rows)
    assert not page.errors, page.errors
    page.close()


def file_of(script):
    """The bytes of the file that a script of the examples names."""
    found = tomllib.loads(script.read_text())["blobs"]
    return (kit.EXAMPLES / found[0].removeprefix("file ")).read_bytes()


def test_bad_archives():
    """An archive that is cut, damaged, empty or encrypted gets a sentence."""
    page = kit.open_page(VIEW)
    with tempfile.TemporaryDirectory() as folder:
        path = Path(folder) / "recording.zip"
        with zipfile.ZipFile(path, "w") as archive:
            archive.writestr("script.toml", "steps = []\n")
        whole = path.read_bytes()
        for data, says in [(whole[:40], "its directory is not there"), (whole.replace(b"steps = []", b"steps = [}"), "another sum than it says"),
                           (b"PK\x05\x06" + bytes(18), "is an empty .zip")]:
            path.write_bytes(data)
            page.evaluate("document.querySelector('#says').hidden = true")
            page.drop("header", path)
            page.wait_for(f"document.querySelector('#says:not([hidden])')?.innerText.includes({json.dumps(says)})", 20)
    page.close()


def test_link():
    """A link carries a small script in its fragment."""
    engine()
    page = kit.open_page(VIEW, before="navigator.clipboard.writeText = async text => { window.copied = text; };")
    page.click("#write")
    page.wait_for("mseplay.shown.script?.told")
    page.click("#editor-link")
    link = page.wait_for("window.copied")
    text = page.evaluate("document.querySelector('#editor-text').value")
    packed = link.split("#script=")[1]
    assert zlib.decompress(base64.urlsafe_b64decode(packed + "=" * (-len(packed) % 4)), -15).decode() == text
    other = kit.open_page(link)
    other.wait_for("mseplay.shown.script?.told")
    assert other.evaluate("document.querySelector('#editor-text').value") == text
    other.evaluate("location.hash = '#script=AAAA'")
    other.wait_for("document.querySelector('#says:not([hidden])')?.innerText.includes('the link was cut')")
    page.close()
    other.close()

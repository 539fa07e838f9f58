"""record.js on pages of our own: the archive, the script that it writes, and that it replays."""

import base64
import contextlib
import io
import json
import math
import re
import sys
import tempfile
import tomllib
import zipfile
from fractions import Fraction
from pathlib import Path

import kit

sys.path.insert(0, str(kit.CLIENTS))

import compare  # noqa: E402
import live  # noqa: E402
import scripts  # noqa: E402

SECOND = 141_120_000_000
ARCHIVE = """async (number) => {
  const bytes = new Uint8Array(await record.archive(number ?? undefined).arrayBuffer());
  return btoa(Array.from(bytes, (byte) => String.fromCharCode(byte)).join(""));
}"""


def opened(front, name):
    return kit.open_page(f"{front}/clients/tests/pages/{name}.html")


def archive_of(page, number=None):
    return zipfile.ZipFile(io.BytesIO(base64.b64decode(page.call(ARCHIVE, number))))


def recorded(name):
    """What record.js has of a page that did all that it does: its archive."""
    with kit.serve(kit.REPOSITORY) as front:
        page = opened(front, name)
        page.evaluate("done", timeout=300)
        assert page.errors == [], page.errors
        archive = archive_of(page)
        page.close()
    assert archive.testzip() is None
    return archive


def unexplained(archive, name="Chromium"):
    """The differences between the program and the browser that no row of docs/BROWSERS.md tells of."""
    kit.program()
    try:
        live.engine()
    except live.NoEngine as missing:
        raise kit.Skip(str(missing)) from missing
    with tempfile.TemporaryDirectory() as folder:
        archive.extractall(folder)
        told = Path(folder, "browser.txt").read_text()
        run, _, found = compare.compared_recording(scripts.read(Path(folder, "recording.toml"), folder), told)
    assert run.name == name, run.name
    return [compare.told(one) for one in found if not one.row]


def script_of(archive):
    return tomllib.loads(archive.read("recording.toml").decode())


def test_page_that_waits():
    kit.program()
    archive = recorded("calls")
    assert archive.namelist() == ["recording.toml", "browser.txt", "buffer-0.bin"]
    plain, late = ((kit.CLIENTS / "rows" / name).read_bytes() for name in ("plain.mp4", "late.mp4"))
    assert archive.read("buffer-0.bin") == plain + late + plain
    names = [step.split(" ")[0] for step in script_of(archive)["steps"]]
    for name in ("attach", "add", "duration", "append", "seek", "remove", "changetype", "offset", "windowend", "abort",
                 "endofstream", "drain", "buffered", "elementbuffered"):
        assert name in names, f"no line {name}"
    told = archive.read("browser.txt").decode()
    assert "call changetype 0 video/none: refused NotSupportedError" in told
    assert unexplained(archive) == []


def test_page_whose_listeners_append():
    kit.program()
    archive = recorded("listeners")
    steps = script_of(archive)["steps"]
    assert [step for step in steps if step.startswith("append")] == [
        "append 0 0 0 734", "append 0 0 734 893", "append 0 0 1627 887", "append 0 0 2514 816"]
    assert "seek 70560000000" in steps
    text = archive.read("recording.toml").decode()
    for words in ("within buffer 0 updateend", "within element loadedmetadata"):
        assert words in text, text
    assert unexplained(archive) == []


def test_player_with_a_timer():
    kit.program()
    archive = recorded("player")
    steps = script_of(archive)["steps"]
    assert any(step.startswith("advance") for step in steps), "the element played"
    assert archive.namelist()[2:] == ["buffer-0.bin", "buffer-1.bin"]
    assert unexplained(archive) == []


def recorder(code):
    """A page with record.js alone, on which code was run that waits for a promise; its archive."""
    page = kit.open_page("about:blank")
    page.evaluate((kit.CLIENTS / "record.js").read_text())
    page.evaluate(f"(async () => {{ {code} }})()", timeout=300)
    archive = archive_of(page)
    page.close()
    return archive


def nearest(seconds):
    """The tick nearest to a double, halves away from 0."""
    exact = abs(Fraction(seconds)) * SECOND
    ticks = min(math.floor(exact + Fraction(1, 2)), 2 ** 110)
    return -ticks if seconds < 0 else ticks


def test_times_are_the_nearest_ticks():
    times = [0, 0.1, 0.3, 1 / 3, -0.3, 2.5, 1e-12, 5e-324, 3.0213333333333332, 86400.123456, 1e6 / 7, -1e-3, 123456789.987]
    code = "".join(f"try {{ source.duration = {time!r}; }} catch (error) {{}}" for time in times)
    archive = recorder(f"const source = new MediaSource(); {code}")
    steps = [step for step in script_of(archive)["steps"] if step.startswith("duration")]
    assert steps == [f"duration {nearest(time)}" for time in times], steps


def test_times_that_are_no_ticks():
    code = """const source = new MediaSource();
        for (const time of [NaN, Infinity, 1e20, Number.MAX_VALUE]) try { source.duration = time; } catch (error) {}"""
    archive = recorder(code)
    words = [step.split(" ")[1] for step in script_of(archive)["steps"] if step.startswith("duration")]
    assert words[:3] == ["nan", "inf", f"{10 ** 20}/1"], words
    assert words[3] == f"{2 ** 110 // SECOND}/1", "the farthest time that a script has"
    printed = re.findall(r"duration (\S+): refused", archive.read("browser.txt").decode())
    assert [int(time) for time in printed[2:]] == [10 ** 20 * SECOND, 2 ** 110 // SECOND * SECOND]


OPENED = """const video = document.createElement("video");
    const source = new MediaSource();
    video.src = URL.createObjectURL(source);
    await new Promise((done) => { source.onsourceopen = done; });
    const buffer = source.addSourceBuffer('video/mp4; codecs="avc1.42C00A"');
    const heard = (type) => new Promise((done) => buffer.addEventListener(type, done, {once: true}));
"""


def test_calls_of_listeners_are_lines_at_their_place():
    archive = recorder(OPENED + """
        buffer.addEventListener("updatestart", () => { try { buffer.remove(0, 1); } catch (error) {} });
        for (let i = 0; i < 3; i += 1) {
          buffer.appendBuffer(new Uint8Array([0, 0, 0, 8, 102, 114, 101, 101]));
          await heard("updateend");
        }""")
    assert archive.read("buffer-0.bin") == b"\0\0\0\x08free", "the same bytes are kept once"
    told = archive.read("browser.txt").decode().splitlines()
    places = [i for i, line in enumerate(told) if line == f"call remove 0 0 {SECOND}: refused InvalidStateError"]
    assert len(places) == 3 and all(told[i - 1] == "event buffer 0 updatestart" for i in places), told
    assert unexplained(archive) == []


def test_calls_while_work_runs_are_not_behind_it():
    """Calls in an `updatestart` that are others each time are lines, with `fire` and no `drain` between them and the
    append that runs."""
    archive = recorder(OPENED + """
        await new Promise((done) => setTimeout(done, 50));
        const free = new Uint8Array([0, 0, 0, 8, 102, 114, 101, 101]);
        let count = 0;
        buffer.addEventListener("updatestart", () => {
          count += 1;
          if (count < 3) { buffer.abort(); buffer.timestampOffset = count; }
        });
        for (let i = 0; i < 3; i += 1) { buffer.appendBuffer(free); await heard("updateend"); }""")
    steps = script_of(archive)["steps"]
    append, abort = steps.index("append 0 0 0 8"), steps.index("abort 0")
    assert steps[append + 1:abort] == ["fire"], steps
    kit.program()
    assert unexplained(archive) == []


def test_calls_that_no_line_tells():
    archive = recorder(OPENED + """
        const tried = [
          () => buffer.remove(1), () => source.addSourceBuffer(), () => buffer.appendBuffer("text"),
          () => source.endOfStream("other"), () => source.removeSourceBuffer(null),
        ];
        for (const call of tried) {
          try { call(); throw new Error("nothing was thrown"); } catch (error) {
            if (error.name !== "TypeError") throw error;
          }
        }
        buffer.mode = "neither";""")
    text = archive.read("recording.toml").decode()
    assert text.count("# not told: ") == 6, text
    assert text.count("refused TypeError") == 5, text


def test_types_are_kept_as_they_are():
    types = ["", "video/mp4 ", " video/mp4", "it's", 'a"b', "vid\u00e9o", "a: done"]
    code = "".join(f"try {{ source.addSourceBuffer({json.dumps(text)}); }} catch (error) {{}}" for text in types)
    archive = recorder(f"const source = new MediaSource(); {code}")
    steps = [step for step in script_of(archive)["steps"] if step.startswith("add")]
    assert steps == ["add", *(f"add {text}" for text in types[1:5]), "add vid?o", "add a: done"], steps
    told = archive.read("browser.txt").decode().splitlines()
    assert told[0] == "call add: refused TypeError", told
    assert told[1].startswith("call add video/mp4 : refused "), told


def test_what_was_there_stays_as_it_was():
    code = """(() => {
        const source = new MediaSource();
        const descriptor = Object.getOwnPropertyDescriptor(HTMLMediaElement.prototype, "currentTime");
        return [source instanceof MediaSource, MediaSource.name, MediaSource.isTypeSupported("video/none"),
          MediaSource.prototype.addSourceBuffer.name, Object.prototype.toString.call(source),
          typeof descriptor.get, descriptor.enumerable, source.constructor === MediaSource];
    })()"""
    page = kit.open_page("about:blank")
    before = page.evaluate(code)
    page.evaluate((kit.CLIENTS / "record.js").read_text())
    assert page.evaluate(code) == before
    page.close()


LEFT = OPENED + """
    buffer.appendBuffer(new Uint8Array([0, 0, 0, 8, 102, 114, 101, 101]));
    await heard("updateend");
    LEAVE;
    await new Promise((done) => setTimeout(done, 100));
    try { buffer.abort(); } catch (error) {}"""


def test_a_page_that_leaves_its_source():
    """However it does so, the recording closes with what was there, and what comes behind is told."""
    for leave, name in [("video.src = ''", "src"), ("video.removeAttribute('src'); video.load()", "load()"),
                        ("video.srcObject = null", "srcObject"), ("video.setAttribute('src', '')", "setAttribute")]:
        archive = recorder(LEFT.replace("LEAVE", leave))
        text, told = (archive.read(each).decode() for each in ("recording.toml", "browser.txt"))
        assert f"# left by {name}" in text and "abort" not in text, text
        lines = told.splitlines()
        assert lines[-4:-1] == ["state source open duration nan level 0 position 0 paused true seeking false error 0",
                                "duration nan", "buffer 0 buffered none"], lines
        assert lines[-1].startswith("# behind the end, when the page had left the source: ") and "sourceclose" in lines[-1]
        assert "removesourcebuffer" not in "\n".join(lines[:-1])
        assert unexplained(archive) == []


def test_a_source_that_is_opened_again():
    """Each life of a source has a recording of its own."""
    page = kit.open_page("about:blank")
    page.evaluate((kit.CLIENTS / "record.js").read_text())
    page.evaluate(f"""(async () => {{ {OPENED}
        video.src = URL.createObjectURL(source);
        await new Promise((done) => {{ source.onsourceopen = done; }});
        source.addSourceBuffer('video/mp4; codecs="avc1.42C00A"');
        video.src = "";
        await new Promise((done) => {{ video.onerror = done; }});
        video.src = URL.createObjectURL(source);
        await new Promise((done) => {{ source.onsourceopen = done; }});
        source.addSourceBuffer('audio/mp4; codecs="mp4a.40.2"');
        await new Promise((done) => setTimeout(done, 100));
    }})()""")
    added = []
    for number in range(page.evaluate("record.list().length")):
        archive = archive_of(page, number)
        added.append([step for step in script_of(archive)["steps"] if step.startswith("add")])
        assert unexplained(archive) == []
    assert added == [['add video/mp4; codecs="avc1.42C00A"']] * 2 + [['add audio/mp4; codecs="mp4a.40.2"']], added
    page.close()


def test_a_source_element():
    archive = recorder("""
        const video = document.createElement("video");
        const child = document.createElement("source");
        document.body.append(video);
        const source = new MediaSource();
        child.src = URL.createObjectURL(source);
        video.append(child);
        await new Promise((done) => { source.onsourceopen = done; });
        video.currentTime = 2;""")
    script = script_of(archive)
    calls = script["steps"] + [call for rule in script.get("rules", []) for call in rule["calls"]]
    assert f"seek {2 * SECOND}" in calls, calls


def test_play_that_no_call_asked_for():
    archive = recorder("""
        const video = document.createElement("video");
        video.autoplay = video.muted = true;
        document.body.append(video);
        const source = new MediaSource();
        video.srcObject = source;
        if (!video.srcObject) video.src = URL.createObjectURL(source);
        await new Promise((done) => { source.onsourceopen = done; });
        const bytes = Uint8Array.from(atob("%s"), (character) => character.charCodeAt(0));
        source.addSourceBuffer('video/mp4; codecs="avc1.42C00A"').appendBuffer(bytes);
        await new Promise((done) => { video.onplaying = done; });
        await new Promise((done) => setTimeout(done, 300));
        """.replace("video.srcObject = source;", "try { video.srcObject = source; } catch (error) {}")
        % base64.b64encode((kit.CLIENTS / "rows" / "plain.mp4").read_bytes()).decode())
    text = archive.read("recording.toml").decode()
    assert "# no call of the page: autoplay, " in text and '"play",' in text, text


def test_save_is_a_download():
    kit.program()
    with tempfile.TemporaryDirectory() as folder, kit.serve(kit.REPOSITORY) as front:
        page = opened(front, "calls")
        page.evaluate("done", timeout=300)
        page.browser.ask("Browser.setDownloadBehavior", behavior="allow", downloadPath=folder,
                         browserContextId=page.context)
        page.evaluate("void record.save()")
        path = Path(folder, "recording.zip")
        kit.wait_until(path.exists, "recording.zip")
        assert page.evaluate("record.list()")[0].startswith("0: ")
        page.close()
        with zipfile.ZipFile(path) as archive:
            assert archive.testzip() is None
        with contextlib.redirect_stdout(io.StringIO()):
            assert compare.main([str(path)]) == 0

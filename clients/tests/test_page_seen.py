"""mseplay.html as people see it: narrow and wide, light and dark, forced colours, the keyboard alone, and what is found."""

import re
import subprocess
import tempfile
from pathlib import Path

import kit
import media_files
import printed
from test_page_media import open_media
from test_page_script import open_script
from test_page_text import SHOWN, VIEW, show, show_text, snapshot
from test_page_use import OVERLAPS, check_contrast, tab_stops

WAYS = ["media", "packager", "script", "recording", "text"]


def show_way(page, way, folder):
    """The five ways in, each with something to look at."""
    if way == "media":
        open_media(page, kit.EXAMPLES / "gap.mp4")
    elif way == "packager":
        open_media(page, *media_files.packager(folder), name="26 files")
    elif way == "script":
        open_script(page, kit.EXAMPLES / "stall.toml", kit.EXAMPLES / "gap.mp4")
    elif way == "recording":
        open_script(page, media_files.recording(folder))
    else:
        show(page, kit.EXAMPLES / "stall.txt")


def each_way(page):
    for way in WAYS:
        with tempfile.TemporaryDirectory() as folder:
            page.go(VIEW)
            page.evaluate("scrollTo(0, 0)")
            show_way(page, way, Path(folder))
            yield way


def test_widths_and_schemes():
    """At 360 and 1,280 pixels, light and dark: nothing is wider than the page, no part lies over another, contrast is 4.5 to 1."""
    page = kit.open_page(VIEW)
    least = 99
    for way in each_way(page):
        for width in (360, 1280):
            page.size(width, 800)
            for scheme in ("light", "dark"):
                page.media(scheme=scheme)
                page.evaluate("new Promise(done => requestAnimationFrame(() => setTimeout(done, 60)))")
                assert page.evaluate("document.documentElement.scrollWidth <= innerWidth"), f"{way} is wider than {width}"
                assert page.evaluate(OVERLAPS) == [], f"{way} at {width}: {page.evaluate(OVERLAPS)}"
                least = min(least, check_contrast(page, f"{way}, {width}, {scheme}"))
    assert not page.errors, page.errors
    page.close()
    return f"least contrast {least:.1f}"


def test_keyboard_alone():
    """Tab comes to all that can be pressed, with a name and an outline; Enter opens the row of a sentence."""
    page = kit.open_page(VIEW)
    for way in each_way(page):
        stops = tab_stops(page, 90)
        names = [stop[0] for stop in stops]
        wanted = {"media": ["open", "save", "position-time", "seek", "odd", "slider", "lines", "find", "only"], "script": ["editor-text", "editor-examples", "editor-link", "slider", "lines"]}
        for name in wanted.get(way, ["open", "slider", "lines"]):
            assert name in names, f"{way}: Tab does not come to {name}: {names}"
        for name, label, style, width in stops:
            assert label.strip() or name in ("position-time", "odd", "find", "only", "editor-examples", "save"), f"{way}: {name} has no name"
            assert style != "none" and width >= 2, f"{way}: the focus on {name} is not seen"
    page.go(VIEW)
    open_media(page, kit.EXAMPLES / "gap.mp4")
    page.evaluate("document.querySelector('#answer .tell').focus()")
    page.press("Enter")
    assert page.evaluate("document.activeElement.closest('tr')?.dataset.rowNumber") == "3"
    page.press("Enter")
    page.wait_for("document.querySelector('.line.chosen .text').textContent.startsWith('event buffer 0 updateend')")
    page.close()


def test_names_for_a_screen_reader():
    """Each field, button and part has a name, and no picture says by colour alone what matters."""
    page = kit.open_page(VIEW)
    for way in each_way(page):
        nodes = page.ask("Accessibility.getFullAXTree")["nodes"]
        for node in nodes:
            role, name = node.get("role", {}).get("value"), node.get("name", {}).get("value", "")
            if role in ("button", "textbox", "searchbox", "combobox", "slider", "checkbox", "region", "listbox", "progressbar", "link") and not node.get("ignored"):
                assert name.strip(), f"{way}: a {role} has no name"
        signs = page.evaluate("[...document.querySelectorAll('#answer li .sign, tr.odd td:last-child')].map(sign => sign.textContent.trim())")
        odd = page.evaluate("[...document.querySelectorAll('tr.odd')].map(row => row.innerText)")
        assert all(signs[:1]), f"{way}: {signs}"
        assert all(re.search("gap|overlap|dropped|fault|replaced|before all", text) for text in odd), odd
    page.close()


def test_forced_colours():
    """With forced colours bars and gaps are there, with a frame or a pattern of their own."""
    page = kit.open_page(VIEW)
    page.ask("Emulation.setEmulatedMedia", media="", features=[{"name": "forced-colors", "value": "active"}])
    show(page, kit.EXAMPLES / "gap.mp4.txt")
    bars = page.evaluate("[...document.querySelectorAll('#rows .bar')].map(bar => { const style = getComputedStyle(bar); return [style.borderTopWidth, style.borderTopColor, style.backgroundColor]; })")
    gaps = page.evaluate("[...document.querySelectorAll('#rows .gap')].map(gap => getComputedStyle(gap).backgroundImage)")
    assert bars and all(width == "2px" and border != ground for width, border, ground in bars), bars
    assert gaps and all("gradient" in image for image in gaps), gaps
    show(page, kit.EXAMPLES / "feed.txt")
    frames = page.evaluate("[...document.querySelectorAll('#rows .frame')].map(frame => getComputedStyle(frame).borderTopWidth)")
    assert set(frames) == {"2px", "4px"}, set(frames)
    page.close()


def listed(page):
    page.evaluate("new Promise(done => requestAnimationFrame(() => setTimeout(done, 30)))")
    return page.evaluate("[...document.querySelectorAll('#lines .line .text')].map(text => text.textContent)")


def choose(page, value):
    page.call("value => { const list = document.querySelector('#only'); list.value = value; list.dispatchEvent(new Event('change')); }", value)


def test_lines_are_found():
    """Lines are searched and filtered: refusals, one buffer, one event, a text; in lines out of view too."""
    page = kit.open_page(VIEW)
    path = kit.EXAMPLES / "listener-remove.txt"
    show(page, path)
    lines = printed.lines_of(path)
    for value, wanted in [("refused", [line for line in lines if ": refused " in line]), ("event updateend", [line for line in lines if line.endswith(" updateend")]),
                          ("calls", [line for line in lines if line.startswith("call ")]), ("listeners", [line for line in lines if line.startswith("listener ")]), ("", lines)]:
        choose(page, value)
        assert listed(page) == wanted, f"{value}: {listed(page)}"
    show(page, kit.EXAMPLES / "two-buffers.txt")
    choose(page, "buffer 1")
    assert listed(page) == [line for line in printed.lines_of(kit.EXAMPLES / "two-buffers.txt") if re.search(r"\bbuffer 1\b|^call (append|buffered) 1\b|^track 1 ", line)]
    text = "\n".join(["call attach: done"] + [f"call seek {at}: done" for at in range(20_000)]) + "\n"
    show_text(page, text)
    page.evaluate("document.querySelector('#find').focus()")
    page.type("seek 1234")
    assert listed(page) == [f"call seek {at}: done" for at in range(20_000) if str(at).startswith("1234")]
    assert page.evaluate("document.querySelector('#found').textContent") == "11 lines"
    page.press("Enter")
    page.press("Enter")
    page.wait_for("document.querySelector('.line.chosen .text')?.textContent.startsWith('call seek 1234')")
    page.close()


def test_why_none_knows_tracks():
    """Where a track line proves an initialization segment, the want of one is not offered; there are three causes all the same."""
    page = kit.open_page(VIEW)
    show(page, kit.EXAMPLES / "cut.mp4.txt")
    causes = page.evaluate("[...document.querySelectorAll('#causes li')].map(item => item.innerText)")
    assert len(causes) == 3 and not any("No initialization segment" in cause for cause in causes), causes
    show(page, kit.EXAMPLES / "note.bin.txt")
    causes = page.evaluate("[...document.querySelectorAll('#causes li')].map(item => item.innerText)")
    assert any("No initialization segment" in cause for cause in causes), causes
    page.close()


def test_browser_text():
    """The buffers of browser.txt, which have no phase and no bytes, are drawn."""
    page = kit.open_page(VIEW)
    show_text(page, "call attach: done\ncall add video/mp4: done\nevent source sourceopen\nstate source open duration inf level 4 position 0 paused true seeking false error 0\n"
              "duration inf\nbuffer 0 buffered [0,18063360000) [21073920000,33868800000)\n")
    row = next(row for row in snapshot(page)["rows"] if row["key"] == "buffer 0")
    assert [(int(a), int(b)) for a, b, *_ in row["bars"]] == [(0, 18063360000), (21073920000, 33868800000)]
    assert page.evaluate("document.querySelector('#notices').hidden") or "passed over" not in page.evaluate("document.querySelector('#notices').innerText")
    page.close()


def test_rows_of_the_gap_table():
    """A row of the table of gaps is at most two lines high, also at 360 pixels."""
    page = kit.open_page(VIEW)
    for width in (1280, 360):
        page.size(width, 800)
        show(page, kit.EXAMPLES / "gap.mp4.txt")
        heights = page.evaluate("[...document.querySelectorAll('#gaps tbody tr')].map(row => row.getBoundingClientRect().height)")
        assert len(heights) == 2 and max(heights) <= 50, heights
    page.close()


def test_seconds_ahead():
    """A row over the lines has the seconds buffered ahead, wherever the lines tell both."""
    page = kit.open_page(VIEW)
    show(page, kit.EXAMPLES / "stall.txt")
    show_text(page, "\n".join(["call attach: done", "call elementbuffered: ranges [0,141120000000)", "call state: source open duration inf level 3 position 0 paused false seeking false error 0",
              "call state: source open duration inf level 3 position 70560000000 paused false seeking false error 0", "call elementbuffered: ranges none",
              "state source open duration inf level 1 position 70560000000 paused false seeking false error 0", "duration inf"]) + "\n")
    for line, ticks in [(2, 141120000000), (3, 141120000000), (4, 70560000000), (5, 0)]:
        page.evaluate(f"mseplay.goTo({line - 1})")
        page.wait_for(f"document.querySelector('.line.chosen .number').textContent === '{line}'")
        assert page.evaluate("document.querySelector('#ahead').dataset.ticks") == str(ticks), line
    page.close()


def test_file_by_ffmpeg():
    """A file that ffmpeg makes, with pictures and sound: nothing is wrong, or what is said names a segment of it."""
    ffmpeg = kit.tool("ffmpeg", package="ffmpeg")
    page = kit.open_page(VIEW)
    with tempfile.TemporaryDirectory() as folder:
        path = Path(folder) / "made.mp4"
        subprocess.run([ffmpeg, "-v", "error", "-f", "lavfi", "-i", "testsrc=size=64x64:rate=25:duration=4", "-f", "lavfi", "-i", "sine=duration=4",
                        "-c:v", "libx264", "-g", "25", "-c:a", "aac", "-movflags", "frag_keyframe+empty_moov+default_base_moof", str(path)], check=True)
        open_media(page, path)
        found = page.evaluate("[mseplay.shown.media.buffers[0].tracks.map(track => track.frames), mseplay.shown.media.rows.filter(row => row.kind === 'media').length]")
        assert found[0][0] == 100 and found[1] >= 4, found
    page.close()

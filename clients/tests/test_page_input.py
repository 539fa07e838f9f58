"""mseplay.html and what comes in: bad input gets a sentence and loses nothing, and a script is written anew with questions."""

import json
import re
import tempfile
import tomllib
from pathlib import Path

import kit
import printed
from test_page_text import SHOWN, VIEW, show, show_text, snapshot

SAYS = 'document.querySelector("#says:not([hidden])")?.innerText ?? ""'
NOTICES = 'document.querySelector("#notices:not([hidden])")?.innerText ?? ""'
PNG = bytes.fromhex("89504e470d0a1a0a0000000d49484452000000010000000108060000001f15c489")


def said(page):
    """The sentence on what was refused."""
    return page.wait_for(SAYS, 10)


def drop_bytes(page, name, data):
    with tempfile.TemporaryDirectory() as folder:
        path = Path(folder) / name
        path.write_bytes(data)
        page.evaluate("document.querySelector('#says').hidden = true")
        page.drop("header", path)
        return said(page)


BAD = [
    ("empty.txt", b"", "is empty"),
    ("spaces.txt", b" \n\n\t\n", "is empty"),
    ("picture.png", PNG, "is a PNG picture"),
    ("photo.jpg", b"\xff\xd8\xff\xe0\0\x10JFIF", "is a JPEG picture"),
    ("noise.bin", bytes(range(256)) * 20, "is no text"),
    ("zeros.bin", bytes(5000), "is no text"),
    ("page.html", b"<!DOCTYPE html>\n<html><body><p>event source sourceopen</p>\n", "is an HTML or XML page"),
    ("page.svg", b"<svg xmlns='http://www.w3.org/2000/svg'></svg>", "is an HTML or XML page"),
    ("data.json", b'{"steps": ["attach"],\n "duration": 3}\n', "looks like JSON"),
    ("letter.txt", "Dear reader,\nthis is no output.\n".encode(), "has no line that mseplay prints. Its first is “Dear reader,”"),
    ("long.txt", b"x" * 3_000_000, "has no line that mseplay prints"),
]


def test_bad_input_gets_a_sentence():
    page = kit.open_page(VIEW)
    for name, data, sentence in BAD:
        words = drop_bytes(page, name, data)
        assert words.startswith(name) and sentence in words, f"{name}: {words}"
        assert page.evaluate("document.querySelector('#start').offsetHeight") > 100, f"{name}: an empty page"
    words = drop_bytes(page, "list.mpd", b"<?xml version='1.0'?><MPD/>")
    assert "list.mpd is a playlist, which names segments" in words, words
    assert not page.errors, page.errors
    page.close()


def test_bad_input_loses_nothing():
    """What was shown before stays."""
    page = kit.open_page(VIEW)
    show(page, kit.EXAMPLES / "gap.mp4.txt")
    before = snapshot(page)["rows"]
    for name, data, sentence in BAD:
        assert sentence in drop_bytes(page, name, data)
        assert page.evaluate(SHOWN) and "gap.mp4.txt" in page.evaluate("document.title")
    page.evaluate("for (const id of ['says', 'script']) document.getElementById(id).hidden = true")
    assert snapshot(page)["rows"] == before
    show(page, kit.EXAMPLES / "stall.txt")
    assert page.evaluate(SAYS) == ""
    page.close()


def notices_of(page, text):
    show_text(page, text)
    return page.evaluate(NOTICES)


def test_cut_and_strange_lines():
    """A text that is cut, or has lines of another kind, is shown as far as it goes, and a sentence says what is left out."""
    page = kit.open_page(VIEW)
    stall = (kit.EXAMPLES / "stall.txt").read_text()
    for cut in range(40, len(stall), 97):
        words = notices_of(page, stall[:cut])
        assert "is left out" in words or "stops before its last lines" in words or "may be cut" in words, f"cut at {cut}: {words}"
        whole = stall[:cut].count("\n")
        assert page.evaluate("document.querySelectorAll('#lines .line').length") in (whole, whole + 1)
    words = notices_of(page, stall.replace("event element waiting\n", "event element wayting!\nsome words\n"))
    assert "Line 20 is none that mseplay prints, and was passed over: “event element wayting!”. 1 other line was passed over too." in words, words
    words = notices_of(page, stall + (kit.EXAMPLES / "gap.mp4.txt").read_text())
    assert "Another output begins at line 34" in words, words
    assert page.evaluate("document.querySelectorAll('#lines .line').length") == 33
    feed = (kit.EXAMPLES / "feed.txt").read_text()
    assert "5 lines of feed are left out" in notices_of(page, feed.split("\n", 2)[2])
    assert "22 lines of feed are left out" in notices_of(page, feed + stall)
    assert page.evaluate("document.querySelectorAll('#lines .line').length") == 33
    page.call("text => mseplay.take(text, 'frames.txt', true)", "\n".join(feed.split("\n")[1:6]) + "\n")
    assert "frames.txt: 5 lines of feed are left out" in said(page)
    assert notices_of(page, "track 0 1 audio mp4a frames 3 ranges [0,9)\n").startswith("The text has no line duration")
    block = (kit.EXAMPLES / "gap.mp4.txt").read_text()
    assert notices_of(page, block) == ""
    assert "no line duration" in notices_of(page, block.split("\n", 1)[1])
    page.close()


def test_texts_in_other_clothes():
    """As Windows writes them, and as the documents show them: indented, behind `$ mseplay`, with `...`."""
    page = kit.open_page(VIEW)
    text = (kit.EXAMPLES / "gap.mp4.txt").read_text()
    show(page, kit.EXAMPLES / "gap.mp4.txt")
    wanted = snapshot(page)["rows"]
    with tempfile.TemporaryDirectory() as folder:
        for name, data in [("crlf.txt", text.replace("\n", "\r\n").encode()), ("utf16.txt", b"\xff\xfe" + text.encode("utf-16-le")),
                           ("bom.txt", b"\xef\xbb\xbf" + text.encode())]:
            path = Path(folder) / name
            path.write_bytes(data)
            show(page, path)
            assert snapshot(page)["rows"] == wanted, name
    shown = "\n".join("    " + line for line in ["$ mseplay ranges gap.mp4", *text.splitlines(), "..."])
    show_text(page, shown + "\n")
    assert snapshot(page)["rows"] == wanted
    assert page.evaluate(NOTICES) == ""
    page.close()


def test_early_ends():
    """The error lines of every status have a sentence."""
    page = kit.open_page(VIEW)
    for line in ["words", "read a.mp4", "no file a.mp4", "listener 3 answered more than 1000 calls for one event", "more than 500 listener calls in one drain",
                 "script not toml", "script key step", "script too many steps", "script blob 0", "script step 4", "script rule 1"]:
        show_text(page, f"error: {line}\n")
        card = page.evaluate("document.querySelector('#faults > *').innerText")
        assert line in card and "The run ended early." not in card and "docs/SCRIPTS.md" in card, card
    attach = "call attach: done\nevent source sourceopen\nerror: listener 3 answered more than 1000 calls for one event\n"
    assert notices_of(page, attach) == ""
    assert page.evaluate("document.querySelectorAll('#lines .line').length") == 3
    page.close()


PASTE = """text => {
  const data = new DataTransfer();
  data.setData("text/plain", text);
  document.activeElement.dispatchEvent(new ClipboardEvent("paste", { clipboardData: data, bubbles: true, cancelable: true }));
}"""


def test_paste_choose_and_type():
    """The other ways in: a paste anywhere, a chosen file, a text typed into the field, and the three on the first screen."""
    page = kit.open_page(VIEW)
    page.call(PASTE, (kit.EXAMPLES / "late.mp4.txt").read_text())
    page.wait_for(SHOWN)
    assert len(snapshot(page)["rows"]) == 2
    page.choose("#file", kit.EXAMPLES / "two-trafs.mp4.txt")
    page.wait_for("document.title.startsWith('two-trafs.mp4.txt') && " + SHOWN)
    assert len(snapshot(page)["rows"]) == 3
    page.go(VIEW)
    page.evaluate("document.querySelector('#paste').focus()")
    page.type((kit.EXAMPLES / "groups.mp4.txt").read_text())
    page.click("#show")
    page.wait_for(SHOWN)
    assert len(snapshot(page)["rows"]) == 2
    for example in ["pieces", "seek-into-a-gap"]:
        page.go(VIEW)
        page.click(f"[data-example={example}]")
        page.wait_for(f"{SHOWN} && document.title.startsWith('{example}.toml')")
    assert not page.errors, page.errors
    page.close()


# Scripts.


def asked(page, path):
    """The script anew, as the page writes it."""
    page.evaluate("mseplay.asked.asked = ''; document.querySelector('#asked').hidden = true")
    page.call("(text, name) => mseplay.askOf(text, name)", path.read_bytes().decode(), path.name)
    page.wait_for("document.querySelector('#asked').offsetHeight > 50")
    return page.evaluate("mseplay.asked.asked")


def questions_behind(script):
    """Behind each step the questions that are to stand there, where each `add` is taken to be done."""
    heard = sum(rule.get("times", 1) * sum(call.split(" ")[0] == "add" for call in rule["calls"]) for rule in script.get("rules", []))
    count, gone, fired = 0, set(), False
    for step in script["steps"]:
        words = step.split(" ")
        count += words[0] == "add"
        fired = fired or words[0] in ("fire", "drain")
        gone |= {int(words[1])} if words[0] == "removebuffer" else set()
        there = [buffer for buffer in range(count + (heard if fired else 0)) if buffer not in gone]
        questions = ["state", "elementbuffered", *(f"buffered {buffer}" for buffer in there)]
        yield step, [question for question in questions if question != step]


def check_asked(name, old, new):
    """The new steps are the old ones, with questions behind each, and nothing else has changed."""
    old, new = tomllib.loads(old), tomllib.loads(new)
    wanted = [line for step, questions in questions_behind(old) for line in (step, *questions)]
    assert new == {**old, "steps": wanted}, f"{name}: {new}"


def test_scripts_anew():
    """Each script of examples/README.md asks at each step, and keeps all else, its comments too."""
    page = kit.open_page(VIEW)
    count = 0
    for path in sorted(kit.EXAMPLES.glob("*.toml")):
        old, new = path.read_text(), asked(page, path)
        check_asked(path.name, old, new)
        for line in old.splitlines():
            if line.startswith("#"):
                assert line in new, f"{path.name}: the comment is gone"
        count += 1
    assert not page.errors, page.errors
    page.close()
    return f"{count} scripts"


def without_questions(lines, question=r"call (state|elementbuffered|buffered \d+): "):
    return [line for line in lines if not re.match(question, line)]


def test_scripts_anew_are_played():
    """What the program prints of the script anew is what it printed of the old one, with answers between; the page shows both."""
    kit.program()
    page = kit.open_page(VIEW)
    with tempfile.TemporaryDirectory() as folder:
        for path in sorted(kit.EXAMPLES.glob("*.toml")):
            new = Path(folder) / path.name
            new.write_text(asked(page, path))
            done = kit.run("play", new)
            assert done.status == 0, f"{path.name}: {done.stdout}"
            text = done.stdout.splitlines()
            assert without_questions(text) == without_questions(printed.lines_of(path.with_suffix(".txt"))), path.name
    page.close()


def test_scripts_anew_by_their_output():
    """Where the output of the script is shown, exactly the buffers are asked that there are then."""
    page = kit.open_page(VIEW)
    show(page, kit.EXAMPLES / "types.txt")
    new = tomllib.loads(asked(page, kit.EXAMPLES / "types.toml"))["steps"]
    assert "Which buffers there are is taken from the text" in page.evaluate("document.querySelector('#script-says').innerText")
    assert new[-7:] == ["add", "state", "elementbuffered", "buffered 0", "buffered 1", "buffered 2", "buffered 3"], new[-8:]
    at = new.index("add video/mp4")
    assert new[at:at + 5] == ["add video/mp4", "state", "elementbuffered", "buffered 0", "add audio/aac"]
    show(page, kit.EXAMPLES / "listener.txt")
    new = tomllib.loads(asked(page, kit.EXAMPLES / "listener.toml"))["steps"]
    assert new[new.index("drain") + 1:][:3] == ["state", "elementbuffered", "buffered 0"], new
    page.close()


TOML = r'''# A script in all the ways that TOML has.
"quota" = 1_000 # bytes
blobs = [ "hex 00", 'file a "b" # c.mp4' ]
steps = [ "attach" , 'add video/mp4; codecs="avc1"', # the first buffer
  """add audio/aac""", # no comma in # here
  '''  "'''buffered 0'''" + r''',
  "state" # the last
]
[[rules]] # steps = ["no"]
listener = 0
on = "buffer 0 updateend"
calls = ["add audio/mp4", "append 1 0"]
times = 2
'''


def ask(page, path):
    page.call("(text, name) => mseplay.askOf(text, name)", path.read_text(), path.name)


def test_toml_in_all_ways():
    page = kit.open_page(VIEW)
    with tempfile.TemporaryDirectory() as folder:
        path = Path(folder) / "ways.toml"
        path.write_text(TOML)
        new = asked(page, path)
        for comment in ["# bytes", "# the first buffer", "# no comma in # here", "# the last", '[[rules]] # steps = ["no"]']:
            assert comment in new, new
        check_asked("ways", TOML, new)
        path.write_bytes(TOML.replace("\n", "\r\n").encode())
        crlf = asked(page, path)
        assert crlf.count("\n") == crlf.count("\r\n") > TOML.count("\n")
        path.write_text('steps = [\n  "attach",\n  "append 0 0\n]\n')
        ask(page, path)
        page.wait_for("document.querySelector('#script-says').innerText.includes('line 3: a text that does not end')")
        path.write_text("quota = 7\n")
        ask(page, path)
        page.wait_for("document.querySelector('#script-says').innerText.includes('it has no key steps')")
        page.evaluate("document.querySelector('#script-says').innerText = ''")
        path.write_text("steps = [" + ", ".join(['"attach"'] * 40000) + "]\n")
        ask(page, path)
        page.wait_for("document.querySelector('#script-says').innerText.includes('at most 100,000 steps')")
        steps = tomllib.loads(page.evaluate("mseplay.asked.asked"))["steps"]
        assert 99990 <= len(steps) <= 100000 and steps.count("attach") == 40000
    assert not page.errors, page.errors
    page.close()


def test_copy_and_save():
    page = kit.open_page(VIEW, before="navigator.clipboard.writeText = async text => { window.copied = text; };")
    new = asked(page, kit.EXAMPLES / "stall.toml")
    page.click("#copy-asked")
    page.wait_for("window.copied === mseplay.asked.asked")
    with tempfile.TemporaryDirectory() as folder:
        page.browser.ask("Browser.setDownloadBehavior", behavior="allow", downloadPath=folder, browserContextId=page.context)
        page.click("#save-asked")
        saved = Path(folder) / "stall-asked.toml"
        kit.wait_until(lambda: saved.exists() and saved.read_text() == new, "the saved script")
    page.close()

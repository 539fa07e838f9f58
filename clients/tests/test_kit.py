"""The kit that drives Chromium: each thing that a test may do with a page, once."""

import tempfile
from pathlib import Path

import kit

PAGE = """<!doctype html><meta charset="utf-8"><title>kit</title>
<style>body { background: white } @media (prefers-color-scheme: dark) { body { background: black } }
@media print { body { background: yellow } }</style>
<input id="text"><button id="button">press</button><div id="place">drop here</div>
<script>
const heard = [];
button.onclick = () => heard.push("click");
addEventListener("keydown", event => heard.push(event.key));
addEventListener("dragover", event => event.preventDefault());
addEventListener("drop", async event => {
  event.preventDefault();
  for (const file of event.dataTransfer.files) heard.push(file.name + " " + await file.text());
});
</script>"""


def written(folder):
    path = Path(folder) / "page.html"
    path.write_text(PAGE)
    return path


def ground(page):
    return page.evaluate("getComputedStyle(document.body).backgroundColor")


def test_file_page():
    with tempfile.TemporaryDirectory() as folder:
        page = kit.open_page(written(folder), before="window.early = 1")
        assert page.evaluate("early + 1") == 2
        assert page.evaluate("new Promise(done => setTimeout(() => done({a: [1, 'ü']}), 5))") \
            == {"a": [1, "ü"]}
        assert page.call("(a, b) => a + b", 2, 3) == 5
        page.click("#button")
        page.press("Tab", shift=True)
        page.type("some text")
        page.press("x")
        assert page.evaluate("text.value") == "some textx"
        note = Path(folder) / "note.txt"
        note.write_text("hello")
        page.drop("#place", note)
        page.wait_for("heard.length == 4")
        assert page.evaluate("heard") == ["click", "Tab", "x", "note.txt hello"]
        assert page.screenshot()[:8] == b"\x89PNG\r\n\x1a\n"
        assert page.pdf()[:5] == b"%PDF-"
        page.close()


def test_media():
    with tempfile.TemporaryDirectory() as folder:
        page = kit.open_page(written(folder))
        page.media(scheme="light")
        assert ground(page) == "rgb(255, 255, 255)"
        page.media(scheme="dark")
        assert ground(page) == "rgb(0, 0, 0)"
        page.media(scheme="dark", medium="print")
        assert ground(page) == "rgb(255, 255, 0)"
        page.close()


def test_errors_are_heard():
    with tempfile.TemporaryDirectory() as folder:
        page = kit.open_page(written(folder))
        page.evaluate("setTimeout(() => { throw new Error('thrown late') }, 0)")
        page.evaluate("console.error('said')")
        kit.wait_until(lambda: page.evaluate("1") and len(page.errors) == 2, "two errors")
        assert any("thrown late" in error for error in page.errors), page.errors
        try:
            page.evaluate("nothing.here")
        except kit.PageError as error:
            assert "nothing is not defined" in str(error)
        else:
            raise AssertionError("the evaluation did not throw")
        page.close()


def test_local_server():
    with tempfile.TemporaryDirectory() as folder:
        written(folder)
        with kit.serve(folder) as front:
            page = kit.open_page(front + "/page.html")
            assert page.evaluate("document.title") == "kit"
            page.close()


def test_program():
    done = kit.run("ranges", "plain.mp4")
    assert done.status == 0
    assert done.stdout == (kit.EXAMPLES / "plain.mp4.txt").read_text()

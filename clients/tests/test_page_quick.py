"""mseplay.html stays quick: work is done in a worker with a bar and a button that stops it; large files and long lists."""

import tempfile
from pathlib import Path

import kit
import media_files
from test_page_media import answers, engine, open_media
from test_page_text import SHOWN, VIEW
from test_page_use import WATCH, long_play, longest_task

MOST = 3.0  # seconds for 300,000 samples


def test_300000_samples():
    """A file of 300,000 samples shows within three seconds, with a row for each of its 3,000 segments."""
    engine()
    page = kit.open_page(VIEW, before=WATCH)
    with tempfile.TemporaryDirectory() as folder:
        path = media_files.long_samples(Path(folder))
        size = path.stat().st_size
        page.evaluate("new Promise(done => setTimeout(() => { window.longest = 0; done(); }, 200))", 300)
        open_media(page, path)
    rows, took = page.evaluate("[mseplay.shown.media.rows.length, mseplay.shown.media.took / 1000]")
    assert rows == 3001, rows
    assert page.evaluate("mseplay.shown.media.buffers[0].tracks[0].frames") == 300_000
    assert [one["kind"] for one in answers(page)][:1] in (["fine"], ["late"]), answers(page)
    assert page.evaluate("document.querySelectorAll('#segment-table tbody tr').length") == 200
    stall = longest_task(page)
    page.close()
    told = f"{took:.2f} s for {size:,} bytes, longest stall {stall:.0f} ms"
    if took > MOST and kit.busy():
        raise kit.Skip(f"the machine is too busy to tell: {told}")
    assert took <= MOST, told
    return told


def sparse(path, size):
    """A file of `size` bytes: three segments, of which the second has a sample as large as a segment may be, and boxes of nothing."""
    group = media_files.group
    with path.open("wb") as out:
        out.write(media_files.init() + group(1, 0) + group(2, 5))
        left = size - out.tell() - len(group(3, 10))
        out.write((1).to_bytes(4, "big") + b"free" + left.to_bytes(8, "big"))
        out.seek(left - 16, 1)
        out.write(group(3, 10))


def test_a_gibibyte_in_pieces():
    """A file of 1 GiB is read in pieces: the page shows its segments, and takes no more memory for it."""
    engine()
    page = kit.open_page(VIEW)
    with tempfile.TemporaryDirectory() as folder:
        path = Path(folder) / "large.mp4"
        sparse(path, 1 << 30)
        page.drop("header", path)
        page.wait_for("!document.querySelector('#busy').hidden", 30)
        page.wait_for("document.querySelector('#progress').value > 0 || mseplay.shown.media?.took", 60)
        page.wait_for(f"{SHOWN} && mseplay.shown.media?.took", 300)
        assert [one["kind"] for one in answers(page)] == ["fine"], answers(page)
        assert page.evaluate("mseplay.shown.media.buffers[0].tracks[0].frames") == 15
        took = page.evaluate("mseplay.shown.media.took / 1000")
    assert not page.errors, page.errors
    page.close()
    return f"{took:.1f} s"


def test_stop():
    """The button stops the work; what was shown stays, and the next file is read as ever."""
    engine()
    page = kit.open_page(VIEW)
    open_media(page, kit.EXAMPLES / "gap.mp4")
    before = answers(page)
    with tempfile.TemporaryDirectory() as folder:
        path = Path(folder) / "large.mp4"
        sparse(path, 1 << 30)
        page.drop("header", path)
        page.wait_for("!document.querySelector('#busy').hidden", 30)
        page.evaluate("document.querySelector('#stop').click()")
        page.wait_for("document.querySelector('#says:not([hidden])')?.innerText.includes('It was stopped')", 30)
    assert page.evaluate("document.querySelector('#busy').hidden")
    assert answers(page) == before
    open_media(page, kit.EXAMPLES / "groups.mp4")
    assert [one["kind"] for one in answers(page)] == ["fine"]
    page.close()


SCROLL = """async () => {
  const lines = document.querySelector("#lines"), gone = [];
  let longest = 0, last = performance.now();
  for (let at = 0; at <= 120; at++) {
    lines.scrollTop = at * 3000;
    await new Promise(done => requestAnimationFrame(done));
    const now = performance.now();
    gone.push(now - last);
    last = now;
    const top = lines.getBoundingClientRect().top + 200;
    const seen = [...lines.querySelectorAll(".line")].some(line => { const box = line.getBoundingClientRect(); return box.top <= top && top < box.bottom; });
    if (!seen && at < 118) throw new Error(`nothing is seen at ${lines.scrollTop}`);
  }
  gone.sort((a, b) => a - b);
  return gone[Math.floor(gone.length * 0.9)];
}"""


def test_20000_lines_scroll():
    """20,000 lines scroll: nine pictures of ten come in less than 50 ms, and each place has its lines."""
    page = kit.open_page(VIEW)
    text = "\n".join(long_play(20_000)) + "\n"
    page.call("text => mseplay.take(text, 'long.txt', true)", text)
    page.wait_for(SHOWN)
    typical = page.evaluate(f"({SCROLL})()", 120)
    page.close()
    told = f"{typical:.0f} ms"
    if typical >= 50 and kit.busy():
        raise kit.Skip(f"the machine is too busy to tell: {told}")
    assert typical < 50, told
    return told

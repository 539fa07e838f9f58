"""mseplay.html beside the browser: the same bytes on the browser's own MediaSource, and what differs."""

import re

import kit
from test_page_media import open_media
from test_page_text import SHOWN, VIEW, snapshot

ROWS = kit.CLIENTS / "rows"


def beside(page, name):
    """Presses the button over a file of rows; the bars of buffer 0 here and there, and the differences."""
    page.go(VIEW)
    open_media(page, ROWS / name)
    page.click("#beside")
    page.wait_for("!document.querySelector('#differences').hidden", 60)
    rows = {row["key"]: [(int(a), int(b)) for a, b, *_ in row["bars"]] for row in snapshot(page)["rows"]}
    told = page.evaluate("[...document.querySelectorAll('#differences li')].map(item => item.innerText)")
    return rows["buffer 0"], rows.get("browser buffer 0", []), told


def test_the_same_ranges():
    """A plain file has the same ranges in both, to three microseconds."""
    page = kit.open_page(VIEW)
    ours, theirs, told = beside(page, "plain.mp4")
    assert told == [] and len(ours) == len(theirs) >= 1, (ours, theirs, told)
    assert all(abs(a - b) < 3 * 141_120 for one, other in zip(ours, theirs) for a, b in zip(one, other)), (ours, theirs)
    assert "the same ranges, to three microseconds" in page.evaluate("document.querySelector('#differences').innerText")
    assert not page.errors, page.errors
    page.close()


def test_differences():
    """Where the first group begins before 0, Chromium keeps more: the difference is told in seconds."""
    page = kit.open_page(VIEW)
    ours, theirs, told = beside(page, "stream-copy.mp4")
    assert ours[0][0] > theirs[0][0], (ours, theirs)
    assert any(re.fullmatch(r"Buffer 0: [\d.]+ s to [\d.]+ s \(.*\) is buffered in this browser, and not here\.", text) for text in told), told
    page.close()


def test_classic_beside():
    """A classic file as fragments goes into the browser too."""
    page = kit.open_page(VIEW)
    ours, theirs, told = beside(page, "classic.mp4")
    assert theirs and not [text for text in told if "went no further" in text], told
    page.close()


def test_what_a_browser_does_not_take():
    """Bytes whose codec is not told get a sentence, and nothing is lost."""
    page = kit.open_page(VIEW)
    open_media(page, kit.EXAMPLES / "plain.mp4")
    page.click("#beside")
    page.wait_for("!document.querySelector('#differences').hidden", 60)
    assert "the codec of a track is not told by its sample entry" in page.evaluate("document.querySelector('#differences').innerText")
    assert page.evaluate(SHOWN)
    page.close()

"""mseplay.html in Firefox: it opens, and shows a file."""

import json
import sys

import kit
from test_page_media import engine
from test_page_text import VIEW

sys.path.insert(0, str(kit.CLIENTS))
import drivers  # noqa: E402


def value(firefox, expression):
    """The value of an expression of the page, through JSON."""
    told = firefox.ask("WebDriver:ExecuteScript", {"script": f"return JSON.stringify({expression});", "args": []})["value"]
    return None if told is None else json.loads(told)


def test_firefox_shows_a_file():
    engine()
    try:
        firefox = drivers.Firefox()
    except drivers.NotDriven as missing:
        raise kit.Skip(str(missing)) from missing
    try:
        firefox.ask("WebDriver:Navigate", {"url": VIEW.as_uri()})
        found = firefox.ask("WebDriver:FindElement", {"using": "css selector", "value": "#file"})["value"]
        element = next(iter(found.values()))
        firefox.ask("WebDriver:ElementSendKeys", {"id": element, "text": str(kit.EXAMPLES / "gap.mp4")})
        kit.wait_until(lambda: value(firefox, "!document.querySelector('#answer').hidden || !document.querySelector('#says').hidden"), "the file", 60)
        says = value(firefox, "document.querySelector('#answer').innerText + document.querySelector('#says').innerText")
        assert "begins 1 frame (21.333 ms) late" in says, says
        rows = value(firefox, "[...document.querySelectorAll('#segment-table tbody tr')].length")
        bars = value(firefox, "[...document.querySelectorAll('#rows [data-row=\"buffer 0\"] .bar')].map(bar => [bar.dataset.from, bar.dataset.to])")
        assert rows == 3 and bars == [["0", "18063360000"], ["21073920000", "33868800000"]], (rows, bars)
        return firefox.version
    finally:
        firefox.close()

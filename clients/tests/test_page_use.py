"""mseplay.html in use: the keyboard alone, light and dark, paper, narrow gaps, long texts, and nothing that leaves the page."""

import random
import tempfile
from fractions import Fraction
from pathlib import Path

import kit
import printed
from test_page_text import SHOWN, VIEW, check_items, rgb, show, show_text, snapshot

FOCUS = """(() => {
  const at = document.activeElement, style = getComputedStyle(at);
  return [at.id || at.dataset.row || at.className || at.tagName, at.getAttribute("aria-label") ?? at.textContent.slice(0, 40), style.outlineStyle, parseFloat(style.outlineWidth)];
})()"""


def tab_stops(page, most=60):
    """What Tab comes to, from the top of the page on, each with its name and whether its outline is seen."""
    page.evaluate("document.activeElement.blur(); window.getSelection().removeAllRanges(); document.body.tabIndex = -1; document.body.focus()")
    stops = []
    for _ in range(most):
        page.press("Tab")
        stop = page.evaluate(FOCUS)
        if stop[0] == "BODY" or (stops and stop == stops[0]):
            break
        stops.append(stop)
    page.evaluate("document.body.removeAttribute('tabindex')")
    return stops


def test_tab_order():
    """Tab comes to all parts in their order; what has the focus has a name and is seen to have it."""
    page = kit.open_page(VIEW)
    show(page, kit.EXAMPLES / "stall.txt")
    stops = tab_stops(page)
    names = [stop[0] for stop in stops]
    for wanted in ["open", "to-script", "print", "all", "in", "out", "left", "right", "before", "slider", "behind", "lines"]:
        assert wanted in names, f"Tab does not come to {wanted}: {names}"
    order = [names.index(name) for name in ["open", "print", "all", "right", "slider", "lines"]]
    assert order == sorted(order), names
    assert sum(name.startswith(("bar", "gap")) for name in names) == 1, "the lanes are not one stop"
    assert names.index("right") < next(at for at, name in enumerate(names) if name.startswith(("bar", "gap"))) < names.index("slider")
    for name, label, style, width in stops:
        assert label.strip(), f"{name} has no name"
        assert style != "none" and width >= 2, f"the focus on {name} is not seen"
    page.close()


def chosen_line(page):
    page.evaluate("new Promise(done => requestAnimationFrame(() => requestAnimationFrame(done)))")
    return int(page.evaluate("document.querySelector('.line.chosen').dataset.number"))


def test_arrow_keys_go_over_the_lines():
    """By the slider, by the list, and wherever else nothing needs them."""
    page = kit.open_page(VIEW)
    show(page, kit.EXAMPLES / "stall.txt")
    assert page.evaluate("document.activeElement.id") == "slider"
    assert chosen_line(page) == 33
    for key, line in [("ArrowLeft", 32), ("ArrowUp", 33), ("ArrowDown", 32), ("Home", 1), ("ArrowRight", 2), ("End", 33)]:
        page.press(key)
        assert chosen_line(page) == line, key
    page.evaluate("document.querySelector('#lines').focus()")
    for key, line in [("Home", 1), ("ArrowDown", 2), ("ArrowDown", 3), ("ArrowUp", 2), ("PageDown", 22), ("PageUp", 2), ("End", 33), ("ArrowDown", 33)]:
        page.press(key)
        assert chosen_line(page) == line, key
    assert page.evaluate("document.querySelector('#lines').getAttribute('aria-activedescendant')") == "line-32"
    page.evaluate("document.activeElement.blur()")
    page.press("ArrowLeft", times=3)
    assert chosen_line(page) == 30
    page.evaluate("document.querySelector('#before').focus()")
    page.press("Enter")
    assert chosen_line(page) == 23
    page.press("Enter")
    assert chosen_line(page) == 22
    page.close()


def test_keys_in_the_lanes():
    """From bar to gap to bar, to other lanes, zoom, copy: with the keyboard alone."""
    page = kit.open_page(VIEW, before="navigator.clipboard.writeText = async text => { window.copied = text; };")
    show(page, kit.EXAMPLES / "gap.mp4.txt")
    page.evaluate("document.querySelector('#right').focus()")
    page.press("Tab")
    at = lambda: page.evaluate("[document.activeElement.classList[0], document.activeElement.dataset.from, document.activeElement.closest('[data-row]')?.dataset.row]")
    assert at() == ["bar", "0", "buffer 0"], at()
    page.press("ArrowRight")
    assert at() == ["gap", "18063360000", "buffer 0"], at()
    times = page.evaluate("document.querySelector('#times').innerText")
    for text in ["18,063,360,000", "0.128", "16/125", "21,073,920,000", "56/375", "3,010,560,000", "8/375"]:
        assert text in times, f"{text} is not in {times}"
    page.press("Enter")
    page.wait_for("window.copied === '18063360000'")
    page.press("ArrowRight")
    assert at() == ["bar", "21073920000", "buffer 0"], at()
    page.press("ArrowDown")
    assert at()[2] == "track 0 1" and at()[0] == "bar", at()
    page.press("ArrowDown")
    assert at()[2] == "track 0 2", at()
    page.press("Home")
    page.press("ArrowRight")
    assert at() == ["gap", "18063360000", "track 0 2"], at()
    before = span(page)
    page.press("+", times=3)
    assert span(page) < before / 4 and at()[0] == "gap", (span(page), before)
    page.press("-")
    page.press("0")
    assert span(page) == before
    assert not page.errors, page.errors
    page.close()


def span(page):
    marks = page.evaluate("[...document.querySelectorAll('#axis .mark')].map(mark => Number(mark.dataset.time))")
    left, right = page.evaluate("[...document.querySelectorAll('#axis .mark')].map(mark => mark.getBoundingClientRect().left).filter((_, at, all) => at === 0 || at === all.length - 1)")
    return round((marks[-1] - marks[0]) / (right - left), 3)


def test_times_to_copy():
    """Each button copies what it says: ticks, seconds and n/scale, which are one time."""
    page = kit.open_page(VIEW, before="navigator.clipboard.writeText = async text => { window.copied = text; };")
    for ticks in [0, 1, -1, 3, 141120, 4704000000, 18063360000, 141120000000, 10**20 + 1, 2**110]:
        show_text(page, f"duration {ticks}\nbuffer 0 phase waiting held 0 used 0 buffered none\n" if ticks >= 0 else
                  f"feed 0 1 at {ticks} wanted 0\nframe 0 pts {ticks} dts 0 dur 1 bytes 1 sync true\nend Wait\nfeed 0 1 at {ticks + 1} none\n")
        page.evaluate("mseplay.goTo(0)")
        page.wait_for("document.querySelector('.line.chosen')?.dataset.number === '1'")
        copies = page.evaluate("[...document.querySelectorAll('#times tbody tr:first-child .copy')].map(button => button.dataset.copy)")
        assert copies[0] == str(ticks), copies
        assert abs(Fraction(copies[1]) - Fraction(ticks, printed.TICKS)) <= Fraction(1, 2 * 10**12), copies
        exact = Fraction(ticks, printed.TICKS)
        if exact.denominator <= 4294967295:
            number, scale = copies[2].split("/")
            assert Fraction(int(number), int(scale)) == exact and int(scale) <= 4294967295, copies
        else:
            assert len(copies) == 2, copies
        page.click("#times tbody tr:first-child .copy")
        page.wait_for(f"window.copied === '{ticks}'")
        assert f"Copied {ticks}" in page.evaluate("document.querySelector('#live').textContent")
    page.close()


# Colours. What is read has a contrast of 4.5 to 1 at least, and bars one of 3 to 1.

CONTRASTS = """() => {
  const parts = color => color.match(/[\\d.]+/g).map(Number);
  const ground = element => {
    for (let at = element; at; at = at.parentElement) {
      const color = parts(getComputedStyle(at).backgroundColor);
      if (color.length === 3 || color[3] > 0.99) return color.slice(0, 3);
    }
    return [255, 255, 255];
  };
  const light = ([r, g, b]) => {
    const [x, y, z] = [r, g, b].map(part => part / 255).map(part => part <= 0.04045 ? part / 12.92 : ((part + 0.055) / 1.055) ** 2.4);
    return 0.2126 * x + 0.7152 * y + 0.0722 * z;
  };
  const contrast = (one, two) => { const [a, b] = [light(one), light(two)].sort((x, y) => y - x); return (a + 0.05) / (b + 0.05); };
  const seen = element => element.getClientRects().length && getComputedStyle(element).visibility === "visible";
  const words = [...document.querySelectorAll("body *")].filter(element => seen(element) && !element.closest("#live, .skip, script") &&
    [...element.childNodes].some(node => node.nodeType === 3 && node.textContent.trim()));
  return {
    words: words.map(element => [element.className || element.tagName, element.textContent.slice(0, 30), contrast(parts(getComputedStyle(element).color).slice(0, 3), ground(element))]),
    bars: [...document.querySelectorAll(".bar, .gap:not(.wide)")].map(bar => [bar.className, contrast(ground(bar), ground(bar.parentElement))]),
  };
}"""


def check_contrast(page, name):
    found = page.evaluate(f"({CONTRASTS})()")
    assert len(found["words"]) > 20
    for kind, text, contrast in found["words"]:
        assert contrast >= 4.5, f"{name}: {kind} “{text}” has a contrast of {contrast:.2f}"
    for kind, contrast in found["bars"]:
        assert contrast >= 3, f"{name}: {kind} has a contrast of {contrast:.2f}"
    return min(contrast for _, _, contrast in found["words"])


def test_light_and_dark():
    page = kit.open_page(VIEW)
    least = {}
    for scheme in ("light", "dark"):
        page.go(VIEW)
        page.media(scheme=scheme)
        check_contrast(page, f"first screen, {scheme}")
        for name in ["stall.txt", "ape.txt", "abort.txt", "cut.mp4.txt", "listener-remove.txt", "two-buffers.txt", "gap.mp4.txt", "feed.txt"]:
            show(page, kit.EXAMPLES / name)
            page.evaluate("mseplay.goTo(Math.min(8, mseplay.page.story.lines.length - 1))")
            page.evaluate("new Promise(done => setTimeout(done, 50))")
            least[scheme] = min(least.get(scheme, 99), check_contrast(page, f"{name}, {scheme}"))
        drop_script(page)
        check_contrast(page, f"a script, {scheme}")
    grounds = []
    for scheme in ("light", "dark"):
        page.media(scheme=scheme)
        grounds.append(page.evaluate("getComputedStyle(document.body).backgroundColor"))
    assert grounds == [rgb("#f6f7f8"), rgb("#14171a")], grounds
    page.close()
    return ", ".join(f"least contrast {value:.1f} in {scheme}" for scheme, value in least.items())


def drop_script(page):
    page.call("(text, name) => mseplay.askOf(text, name)", (kit.EXAMPLES / "stall.toml").read_text(), "stall.toml")
    page.wait_for("document.querySelector('#asked').offsetHeight > 50")


def test_paper():
    """On paper: all lines in full, no buttons to press, light also where the screen is dark, and nothing over another."""
    page = kit.open_page(VIEW, width=760, height=1000)
    page.media(scheme="dark", medium="print")
    for name in ["stall.txt", "feed.txt", "base-offset.mp4.txt", "listener-remove.txt"]:
        path = kit.EXAMPLES / name
        show(page, path)
        assert page.evaluate("getComputedStyle(document.body).backgroundColor") == "rgb(255, 255, 255)"
        for hidden in ["#open", "#print", "#walk", "#all", "#start"]:
            assert page.call("selector => document.querySelector(selector).getClientRects().length", hidden) == 0, hidden
        lines = page.evaluate("[...document.querySelectorAll('#lines .line')].map(line => [line.querySelector('.text').textContent, line.querySelector('.text').scrollWidth <= line.querySelector('.text').clientWidth + 1])")
        assert [text for text, _ in lines] == printed.lines_of(path)
        assert all(fits for _, fits in lines), [text for text, fits in lines if not fits]
        assert page.evaluate("document.documentElement.scrollWidth <= innerWidth"), f"{name} is wider than the paper"
        assert page.evaluate(OVERLAPS) == [], f"{name}: {page.evaluate(OVERLAPS)}"
        assert page.pdf()[:5] == b"%PDF-"
    page.media(scheme="dark")
    assert page.evaluate("document.querySelector('#walk').getClientRects().length") == 1
    page.close()


# Parts that stand over one another though they should stand below: their names.
OVERLAPS = """(() => {
  const parts = [...document.querySelectorAll("section, .card, header, .row")].filter(part => part.getClientRects().length);
  const boxes = parts.map(part => [part, part.getBoundingClientRect()]), found = [];
  for (const [one, a] of boxes) for (const [two, b] of boxes) {
    if (one === two || one.contains(two) || two.contains(one)) continue;
    if (a.left < b.right - 1 && b.left < a.right - 1 && a.top < b.bottom - 1 && b.top < a.bottom - 1) found.push(`${one.id || one.className} and ${two.id || two.className}`);
  }
  const lines = document.querySelector("#lines");
  if (lines.getClientRects().length && lines.scrollHeight > lines.clientHeight + 1 && matchMedia("print").matches) found.push("lines are cut");
  return found;
})()"""

# Words in the lanes and on the axis that run into one another.
MEETING_WORDS = """(() => {
  const found = [];
  for (const lane of document.querySelectorAll(".lane")) {
    const words = [...lane.querySelectorAll(".gap-word, .flag, .mark span")].map(word => [word.textContent, word.getBoundingClientRect()]).filter(([, box]) => box.width);
    words.sort((a, b) => a[1].left - b[1].left);
    const meet = (a, b) => a.left < b.right - 0.5 && b.left < a.right - 0.5 && a.top < b.bottom - 2 && b.top < a.bottom - 2;
    words.forEach(([one, a], at) => words.slice(at + 1).forEach(([two, b]) => { if (meet(a, b)) found.push(`${one} / ${two}`); }));
    const room = lane.getBoundingClientRect();
    for (const [text, box] of words) if (box.right > room.right + 2 || box.left < room.left - 2) found.push(`${text} leaves its lane`);
  }
  return found;
})()"""


def test_no_words_meet():
    """In every output, wide and narrow, no label lies over another and no part over another."""
    page = kit.open_page(VIEW)
    for width in (1280, 700, 414, 360, 320):
        page.size(width, 800)
        for path in printed.outputs():
            show(page, path)
            assert page.evaluate(MEETING_WORDS) == [], f"{path.name} at {width}: {page.evaluate(MEETING_WORDS)}"
            assert page.evaluate(OVERLAPS) == [], f"{path.name} at {width}: {page.evaluate(OVERLAPS)}"
            assert page.evaluate("document.documentElement.scrollWidth <= innerWidth"), f"{path.name} is wider than {width}"
    page.close()


def test_narrow_gaps():
    """Gaps of a tick in hours of media are seen, and zoom leads to where the tick is many pixels wide."""
    page = kit.open_page(VIEW)
    hour = 3600 * printed.TICKS
    ranges = [(0, hour), (hour + 1, 2 * hour), (2 * hour + 141_120, 3 * hour)]
    text = " ".join(f"[{a},{b})" for a, b in ranges)
    show_text(page, f"duration inf\nbuffer 0 phase waiting held 0 used 9 buffered {text}\ntrack 0 1 audio mp4a frames 506250 ranges {text}\n")
    shot = snapshot(page)
    row = shot["rows"][0]
    check_items("narrow", shot, row["bars"], ranges)
    assert [(int(a), int(b)) for a, b, *_ in row["gaps"]] == printed.gaps_of(ranges)
    assert all(gap[4] >= 2 for gap in row["gaps"]), row["gaps"]
    words = [gap[4] for gap in shot["gapRows"]]
    assert "< 0.001 frames" in words[0] and "0.000007" in words[0] and "\t1\t" in words[0].replace("\n", "\t"), words[0]
    page.click("[data-gap='buffer 0'] .tell")
    page.evaluate("document.activeElement.matches('.gap') || document.querySelector('#rows .gap').focus()")
    page.press("+", times=60)
    shot = snapshot(page)
    assert page.evaluate("document.querySelector('#unit').textContent") == "ticks"
    assert shot["rows"][0]["gaps"][0][4] > 100, shot["rows"][0]["gaps"]
    page.close()


def crowd(count, seed=1):
    """So many ranges with gaps of all widths, in a block."""
    draw, at, ranges = random.Random(seed), 0, []
    for _ in range(count):
        end = at + draw.randrange(1, 5 * printed.TICKS)
        ranges.append((at, end))
        at = end + draw.choice([1, 1000, 141_120, 3_010_560_000])
    return ranges


def test_crowds_of_ranges():
    """Of very many ranges those of one place are drawn as one and say how many they are; zoom shows each."""
    page = kit.open_page(VIEW)
    ranges = crowd(50_000)
    text = " ".join(f"[{a},{b})" for a, b in ranges)
    show_text(page, f"duration inf\nbuffer 0 phase waiting held 0 used 9 buffered {text}\n")
    counts = page.evaluate("[...document.querySelectorAll('#rows .bar, #rows .many')].map(item => Number(item.dataset.count))")
    assert sum(counts) == len(ranges) and len(counts) <= 300, (sum(counts), len(counts))
    assert "Gaps (49,999)" in page.evaluate("document.querySelector('#gaps').innerText")
    page.evaluate("document.querySelector('#rows button').focus()")
    page.press("+", times=14)
    assert page.evaluate("document.activeElement.closest('#rows') !== null")
    shot = snapshot(page)
    drawn = shot["rows"][0]["bars"]
    first = ranges.index((int(drawn[0][0]), int(drawn[0][1])))
    assert [(int(a), int(b)) for a, b, *_ in drawn] == ranges[first:first + len(drawn)] and len(drawn) > 1
    assert page.evaluate("document.querySelectorAll('#rows .many').length") == 0
    page.close()


# Long texts. A task of the page that lasts longer is a stall; tasks are watched from the drop on.

WATCH = """window.longest = 0;
new PerformanceObserver(list => { for (const task of list.getEntries()) window.longest = Math.max(window.longest, task.duration); })
  .observe({ type: "longtask", buffered: true });"""


def long_play(count):
    """Lines of `play`: appends in a listener's hands, their events, questions with more and more ranges."""
    lines, end, step = ["call attach: done", "call add video/mp4: done", "call add audio/mp4: done"], 0, 0
    state = "source open duration inf level 3 position {} paused false seeking false error 0"
    while len(lines) < count:
        step += 1
        end += 564_480_000_000 + (step % 7 == 0)
        front = f"[0,{end - 564_480_000_000})" if step % 7 else f"[0,{end - 564_480_000_001})"
        lines += [
            f"call append 0 {step}: done", "event buffer 0 updatestart", "event element canplay", "event buffer 0 update",
            f"listener 0 append 1 {step}: done", "event buffer 0 updateend", f"listener 0 mode 0 sequence: refused InvalidStateError",
            "event buffer 1 updatestart", "event buffer 1 update", "event buffer 1 updateend",
            f"call buffered 0: ranges {front} [{end - 564_480_000_000},{end})" if step % 7 == 0 else f"call buffered 0: ranges [0,{end})",
            f"call buffered 1: ranges [0,{end})", f"call elementbuffered: ranges [0,{end})", "call state: " + state.format(end // 2),
        ]
    lines = lines[:count - 6]
    lines += ["state " + state.format(end // 2), "duration inf", f"buffer 0 phase waiting held 0 used 1000 buffered [0,{end})",
              f"track 0 1 video avc1 frames 1000 ranges [0,{end})", f"buffer 1 phase waiting held 0 used 1000 buffered [0,{end})", f"track 1 1 audio mp4a frames 1000 ranges [0,{end})"]
    return lines


def long_feed(count):
    """Lines of `feed`: groups of eight frames, decoded in another order than shown."""
    lines, frame, at = [], 0, 0
    order = [0, 4, 2, 1, 3, 6, 5, 7]
    while len(lines) < count - 12:
        lines.append(f"feed 0 1 at {at} wanted {frame}")
        for place, shown in enumerate(order):
            lines.append(f"frame {frame} pts {at + shown * 5_644_800_000} dts {at + (place - 3) * 5_644_800_000} dur 5644800000 bytes 4 sync {'false' if place else 'true'}")
            frame += 1
        at += 8 * 5_644_800_000
        lines.append("end GroupEnd")
    lines[-1] = "end Wait"
    return lines + [f"feed 0 1 at {at} none"]


def many_buffers(count):
    """A block with very many buffers, as after a script that adds and removes."""
    lines = ["duration inf"]
    for buffer in range(count // 2):
        lines += [f"buffer {buffer} phase waiting held 0 used 4 buffered [0,{buffer + 1})", f"track {buffer} 1 audio mp4a frames 1 ranges [0,{buffer + 1})"]
    return lines


SLIDE = """async () => {
  const slider = document.querySelector("#slider"), last = Number(slider.max);
  let longest = 0;
  for (let at = 0; at <= 60; at++) {
    const start = performance.now();
    slider.value = 1 + Math.round((last - 1) * (at * 37 % 61) / 60);
    slider.dispatchEvent(new Event("input"));
    await new Promise(done => requestAnimationFrame(() => setTimeout(done)));
    longest = Math.max(longest, performance.now() - start);
  }
  return longest;
}"""


def stall_of(lines):
    """No task of the page lasts a second; where one does and the machine does much else too, that says nothing."""
    stalls = measured(lines)
    told = ", ".join(f"{longest:.0f} ms {what}" for what, longest in stalls.items())
    if max(stalls.values()) >= 1000 and kit.busy():
        raise kit.Skip(f"the machine is too busy to tell a stall: {told}")
    assert max(stalls.values()) < 1000, f"{len(lines):,} lines stall: {told}"
    return f"{len(lines):,} lines, longest stall {told}"


def measured(lines):
    """Drops a long text, and goes over it by slider, keys and zoom: the longest tasks, in milliseconds."""
    page = kit.open_page(VIEW, before=WATCH)
    with tempfile.TemporaryDirectory() as folder:
        path = Path(folder) / "long.txt"
        path.write_text("\n".join(lines) + "\n")
        page.evaluate("new Promise(done => setTimeout(() => { window.longest = 0; done(); }, 200))", 300)
        show(page, path)
    opening = longest_task(page)
    slide = page.evaluate(f"({SLIDE})()", 600)
    page.evaluate("document.querySelector('#lines').focus()")
    for key in ["Home", "PageDown", "PageDown", "End", "ArrowUp"]:
        page.press(key)
    page.evaluate("document.querySelector('#lines').scrollTop = 400000")
    for button in ["#in", "#out", "#all"]:
        page.click(button)
    going = longest_task(page)
    assert not page.errors, page.errors
    page.close()
    return {"while it opens": opening, "while it is gone over": going, "from one place of the slider to the next": slide}


def longest_task(page):
    """The longest task since this was asked last."""
    return page.evaluate("new Promise(done => setTimeout(() => { done(window.longest); window.longest = 0; }, 150))", 300)


def test_long_play():
    lines = long_play(100_000)
    assert len(lines) == 100_000
    return stall_of(lines)


def test_long_feed():
    return stall_of(long_feed(100_000))


def test_many_buffers():
    return stall_of(many_buffers(100_000))


def test_one_long_line():
    ranges = " ".join(f"[{a},{b})" for a, b in crowd(100_000, 2))
    lines = long_play(2000)
    return stall_of(lines[:1000] + [f"call buffered 0: ranges {ranges}"] + lines[1000:])


def test_long_play_is_right():
    """A long text is drawn as a short one: bars and chosen line at some of its lines."""
    lines = long_play(20_000)
    page = kit.open_page(VIEW)
    show_text(page, "\n".join(lines) + "\n")
    for index in [0, 17, 5000, 12_345, 19_993, 19_999]:
        page.evaluate(f"mseplay.goTo({index})")
        page.wait_for(f"document.querySelector('.line.chosen')?.dataset.number === '{index + 1}'")
        shot = snapshot(page)
        told = printed.known(lines, index)
        for row in shot["rows"]:
            check_items(f"line {index + 1}, {row['key']}", shot, row["bars"], printed.ranges_in(told.get(row["key"], "")))
        assert page.evaluate("document.querySelector('.line.chosen .text').textContent") == lines[index]
    page.close()


def test_nothing_leaves_the_page():
    """No request but the page itself and its worker, which it makes, and none is allowed."""
    page = kit.open_page(VIEW)
    asked = []
    page.ask("Network.enable")
    hear = page.hear
    page.hear = lambda method, params: (asked.append(params["request"]["url"]) if method == "Network.requestWillBeSent" else None, hear(method, params))
    page.go(VIEW)
    for name in ["stall.txt", "ape.txt", "feed.txt", "note.bin.txt"]:
        show(page, kit.EXAMPLES / name)
    refused = page.evaluate("fetch('https://example.org/').then(() => 'sent', () => 'refused')")
    assert refused == "refused"
    assert {address for address in asked if not address.startswith(("data:", "blob:", "https://example.org/"))} == {VIEW.as_uri()}, asked
    page.close()

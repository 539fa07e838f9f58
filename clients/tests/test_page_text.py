"""mseplay.html over every output of examples/README.md: what is drawn is compared with the text, which printed.py reads by itself."""

import html
import itertools
import json
import re
import tempfile
import tomllib
from fractions import Fraction
from pathlib import Path

import kit
import printed

VIEW = kit.CLIENTS / "mseplay.html"
NUMBERS = itertools.count(1)
SHOWN = 'document.body.dataset.state === "shown"'

# What a person sees, gathered from the page: rows with their bars and gaps and where these stand, the state, the events.
SNAPSHOT = """() => {
  const all = (root, selector) => [...root.querySelectorAll(selector)];
  const box = element => { const at = element.getBoundingClientRect(); return [at.left, at.right, at.width]; };
  const item = element => [element.dataset.from, element.dataset.to, ...box(element)];
  const rows = all(document, "#rows > [data-row]").map(row => ({
    key: row.dataset.row, name: row.querySelector(".name").textContent, words: row.querySelector(".words")?.textContent ?? null,
    bars: all(row, ".bar").map(item), gaps: all(row, ".gap").map(item),
    frames: all(row, ".frame").map(frame => [frame.dataset.frame, frame.classList.contains("sync"), ...item(frame)]),
    none: all(row, "[data-none]").map(mark => mark.dataset.none),
  }));
  const state = document.querySelector("#state");
  return {
    rows, marks: all(document, "#axis .mark").map(mark => [mark.dataset.time, mark.getBoundingClientRect().left]),
    labels: all(document, "#axis .mark").map(mark => mark.textContent), unit: document.querySelector("#unit").textContent,
    position: all(document, "#overlay .position").map(line => [line.dataset.time, ...box(line)]),
    level: state?.dataset.level ?? null, told: state?.dataset.position ?? null,
    fired: Object.fromEntries(all(document, "[data-target]").map(row => [row.dataset.target, Number(row.dataset.fired)])),
    coming: Object.fromEntries(all(document, "[data-target]").map(row => [row.dataset.target,
      all(row, ".event-chip").map(chip => [chip.textContent, chip.classList.contains("later")])])),
    chosen: document.querySelector(".line.chosen .number")?.textContent ?? null,
    none: all(document, "#causes:not([hidden]) [data-none-of]").map(head => [head.dataset.noneOf, head.nextElementSibling.children.length]),
    gapRows: all(document, "#gaps:not([hidden]) [data-gap]").map(row => [row.dataset.gap, row.dataset.from, row.dataset.to, row.dataset.ticks, row.innerText]),
  };
}"""

# What the page shows at each line, by the slider.
WALK = """async () => {
  const slider = document.querySelector("#slider"), shots = [];
  const drawn = () => new Promise(done => requestAnimationFrame(done)); // the page has asked first, so it has drawn
  for (let line = 1; line <= Number(slider.max); line++) {
    slider.value = line;
    slider.dispatchEvent(new Event("input"));
    await drawn();
    shots.push((SNAPSHOT)());
  }
  return shots;
}""".replace("SNAPSHOT", SNAPSHOT)


def show(page, path):
    """Drops a file on the page, and waits until it is shown."""
    page.drop("header", path)
    page.wait_for(f"{SHOWN} && document.title.startsWith({json.dumps(path.name + ' ')})")


def show_text(page, text):
    """Shows a text, as where it is pasted, and waits until it is shown."""
    name = f"text {next(NUMBERS)}"
    page.call("(text, name) => mseplay.take(text, name, true)", text, name)
    page.wait_for(f"{SHOWN} && document.title.startsWith({json.dumps(name + ' ')})")


def snapshot(page):
    return page.evaluate(f"({SNAPSHOT})()")


def walk(page):
    return page.evaluate(f"({WALK})()", timeout=300)


def each_output(kinds):
    """Each output of these kinds, shown one after the other: its path, its lines, the page."""
    page = kit.open_page(VIEW)
    for path in printed.outputs():
        lines = printed.lines_of(path)
        if printed.kind_of(lines) in kinds:
            show(page, path)
            yield path, lines, page
            assert not page.errors, f"{path.name}: {page.errors}"
    page.close()


def place(shot, time):
    """Where a time stands by the marks of the axis."""
    (first, left), (last, right) = [(int(time), at) for time, at in (shot["marks"][0], shot["marks"][-1])]
    return left + float(Fraction((time - first) * 10**6, last - first)) * (right - left) / 10**6


def check_axis(name, shot):
    """What is written at the marks of the axis is where they stand."""
    for (time, at), label in zip(shot["marks"], shot["labels"]):
        ticks = Fraction(label.replace(",", "")) * (1 if shot["unit"] == "ticks" else printed.TICKS)
        assert ticks == int(time), f"{name}: {label} at {time}"
        assert abs(place(shot, int(time)) - at) < 2.5, f"{name}: {label} stands at {at}"


def check_items(name, shot, drawn, wanted):
    """Bars or gaps: their number and their ends, and that they stand where the axis has these times."""
    assert [(int(a), int(b)) for a, b, *_ in drawn] == wanted, f"{name}: {drawn} in place of {wanted}"
    for start, end, left, right, _ in drawn:
        for time, at in ((int(start), left), (int(end), right)):
            assert abs(place(shot, time) - at) < 2.5, f"{name}: {time} stands at {at} and not at {place(shot, time)}"


def check_rows(name, lines, index, shot):
    check_axis(name, shot)
    rows = {row["key"]: row for row in shot["rows"]}
    assert list(rows) == printed.rows_of(lines), f"{name}: rows {list(rows)}"
    told = printed.known(lines, index)
    for key, row in rows.items():
        check_row(f"{name}, line {index + 1}, {key}", shot, row, told.get(key))


def check_row(name, shot, row, answer):
    ranges = printed.ranges_in(answer or "")
    check_items(name, shot, row["bars"], ranges)
    check_items(name, shot, row["gaps"], printed.gaps_of(ranges))
    assert all(gap[4] >= 2 for gap in row["gaps"]), f"{name}: a gap is narrower than 2 pixels"
    if answer is None:
        assert "told" in row["words"], f"{name}: {row['words']}"
    elif answer.startswith("refused"):
        assert row["words"] == answer
    elif answer.endswith("none"):
        assert row["words"].startswith("none")
    else:
        assert row["words"] is None


def check_none(name, lines, index, shot):
    """Each buffer and element that answered `none` has three causes, up to three of them."""
    told = printed.known(lines, index)
    wanted = [key for key in printed.rows_of(lines) if told.get(key, "").endswith("none") and not key.startswith("track")]
    assert shot["none"] == [[key, 3] for key in wanted[:3]], f"{name}: {shot['none']}"


def check_gap_rows(name, lines, index, shot):
    """The table of gaps: each gap in ticks, microseconds and, of a track, in frames."""
    told = printed.known(lines, index)
    wanted = [(key, gap) for key in printed.rows_of(lines) if key != "seekable"
              for gap in printed.gaps_of(printed.ranges_in(told.get(key, "")))]
    drawn = [(key, (int(a), int(b))) for key, a, b, _, _ in shot["gapRows"]]
    assert drawn == wanted[:40], f"{name}: {drawn}"
    for key, start, end, ticks, text in shot["gapRows"]:
        width = int(end) - int(start)
        assert int(ticks) == width
        assert f"{width:,}" in text and microseconds(width) in text, f"{name}: {text}"
        check_frames_word(name, lines, key, width, text)


def microseconds(width):
    """At most three decimals, rounded half up, in groups of three digits."""
    thousandths = (2 * width * 1000 + 141_120) // (2 * 141_120)
    text = f"{thousandths // 1000:,}.{thousandths % 1000:03d}"
    return text.rstrip("0").rstrip(".")


def check_frames_word(name, lines, key, width, text):
    if not key.startswith("track "):
        return
    mean = printed.mean_frame(lines, key)
    count = Fraction(width) / mean
    found = re.search(r"(≈ )?([\d.]+) frames?\b", text)
    assert found, f"{name}: no frames in {text}"
    assert abs(Fraction(found[2]) - count) <= Fraction(1, 1000), f"{name}: {found[0]} in place of {float(count)}"
    assert (found[1] is None) == (count.denominator == 1), f"{name}: {found[0]} of {count}"


def test_blocks():
    """`ranges`, `pieces`, `make`: the last line is shown, and so all that the block tells."""
    count = 0
    for path, lines, page in each_output({"ranges", "make"}):
        shot = snapshot(page)
        check_rows(path.name, lines, len(lines) - 1, shot)
        check_none(path.name, lines, len(lines) - 1, shot)
        check_gap_rows(path.name, lines, len(lines) - 1, shot)
        count += 1
    assert count > 20
    return f"{count} outputs"


def test_plays_at_each_line():
    """At each line of `play`: the last answers, the level, the position, what was fired of each target."""
    count = 0
    for path, lines, page in each_output({"play"}):
        shots = walk(page)
        assert len(shots) == len(lines), path.name
        for index, shot in enumerate(shots):
            check_rows(path.name, lines, index, shot)
            check_none(path.name, lines, index, shot)
            check_gap_rows(path.name, lines, index, shot)
            check_state(path.name, lines, index, shot)
            check_events(path.name, lines, index, shot)
            count += 1
    return f"{count} lines"


def check_state(name, lines, index, shot):
    assert shot["chosen"] == str(index + 1), f"{name}: line {shot['chosen']} is chosen in place of {index + 1}"
    told = printed.state_at(lines, index)
    if told is None:
        assert shot["level"] is None and not shot["position"], f"{name}, line {index + 1}"
        return
    level, position = told
    assert (int(shot["level"]), int(shot["told"])) == told, f"{name}, line {index + 1}: {shot['level']} {shot['told']}"
    (time, left, right, _), = shot["position"]
    assert int(time) == position and abs((left + right) / 2 - place(shot, position)) < 2


def check_events(name, lines, index, shot):
    events = printed.events(lines)
    targets = {target for _, target, _ in events}
    fired = {target: sum(1 for at, of, _ in events if of == target and at <= index) for target in targets}
    assert {target: count for target, count in shot["fired"].items() if target in targets} == fired, f"{name}, line {index + 1}"
    for target in targets:
        behind = [kind for at, of, kind in events if of == target and at > index]
        coming = [kind for kind, _ in shot["coming"][target] if "not fired" not in kind]
        assert coming == behind[: len(coming)], f"{name}, line {index + 1}, {target}: {coming} in place of {behind}"


def test_queue():
    """What surely waits in the queue, worked by hand: a call queues its event, and all before that one wait too."""
    page = kit.open_page(VIEW)
    show(page, kit.EXAMPLES / "abort.txt")
    third = walk(page)[2]["coming"]
    assert third["source"] == [["sourceopen", False]]
    assert third["sourcebuffers"] == [["addsourcebuffer", False]]
    assert third["buffer 0"] == [["updatestart", False], ["update", True], ["updateend", True]]
    assert third["element"][0] == ["durationchange", True]
    text = "call attach: done\ncall add video/mp4: done\ncall append 0 0: done\nevent source sourceopen\n" \
        "state source open duration nan level 0 position 0 paused true seeking false error 0\nduration nan\n" \
        "buffer 0 phase waiting held 0 used 0 buffered none\n"
    show_text(page, text)
    last = walk(page)[-1]["coming"]
    assert last["buffer 0"] == [["updatestart, not fired in this text", False]], last
    assert last["sourcebuffers"] == [["addsourcebuffer, not fired in this text", False]], last
    page.close()


def lines_without_end(steps, head, folder):
    """What the program prints of some steps, up to the line `state` of the end."""
    path = Path(folder) / "part.toml"
    path.write_text(head + "steps = " + json.dumps(steps) + "\n")
    lines = kit.run("play", path).stdout.splitlines()
    return lines[: next(at for at, line in enumerate(lines) if line.startswith("state "))]


def test_queue_is_that_of_the_program():
    """What waits for certain is what the program fires next, without any work: at each step of each script without rules."""
    kit.program()
    page, count, certain = kit.open_page(VIEW), 0, 0
    with tempfile.TemporaryDirectory() as folder:
        for path in sorted(kit.EXAMPLES.glob("*.toml")):
            script = tomllib.loads(path.read_text())
            if "rules" in script or not path.with_suffix(".txt").exists():
                continue
            head = "".join(f"{key} = {json.dumps(value)}\n" for key, value in script.items() if key != "steps")
            show(page, path.with_suffix(".txt"))
            shots = walk(page)
            for steps in range(1, len(script["steps"]) + 1):
                before = lines_without_end(script["steps"][:steps], head, folder)
                queue = lines_without_end(script["steps"][:steps] + ["fire"] * 80, head, folder)[len(before):]
                certain += check_certain(f"{path.name}, step {steps}", shots[len(before) - 1]["coming"], queue)
                count += 1
    page.close()
    return f"{count} steps, {certain} events for certain"


def check_certain(name, coming, queue):
    """Of each target, the events that wait for certain are the first of its events in the queue."""
    count = 0
    for target, chips in coming.items():
        waits = []
        for text, is_later in chips:
            kind, _, times = text.partition(",")[0].partition(" × ")
            waits += [] if is_later else [kind] * int(times or 1)
        fired = [line.rsplit(" ", 1)[1] for line in queue if line.startswith(f"event {target} ")]
        assert waits == fired[:len(waits)], f"{name}, {target}: {waits} and not {fired}"
        count += len(waits)
    return count


LIST = """() => [...document.querySelectorAll("#lines .line")].map(line => {
  const text = line.querySelector(".text"), range = document.createRange();
  range.selectNodeContents(text);
  return [line.querySelector(".number").textContent, text.textContent, range.getBoundingClientRect().left,
    getComputedStyle(text).color, line.classList.contains("chosen")];
})"""


def test_lists():
    """Each line stands in the list; calls of listeners are indented below their event; refusals have a colour of their own."""
    refused = 0
    for path, lines, page in each_output({"play", "ranges", "make", "feed", "fault"}):
        drawn = page.evaluate(f"({LIST})()")
        assert [int(number) for number, *_ in drawn] == list(range(1, len(lines) + 1)), path.name
        plain = [left for (_, _, left, *_), line in zip(drawn, lines) if not line.startswith("listener ")]
        for (_, text, left, color, is_chosen), line in zip(drawn, lines):
            assert text == line, f"{path.name}: {text} in place of {line}"
            if line.startswith("listener "):
                assert left > max(plain) + 10, f"{path.name}: {line} is not indented"
        bad = page.call("text => getComputedStyle(document.documentElement).getPropertyValue(text)", "--bad").strip()
        red = {int(number) - 1 for number, _, _, color, is_chosen in drawn if color == rgb(bad) and not is_chosen}
        wanted = {*printed.refusals(lines), *(at for at, line in enumerate(lines) if line.startswith("fault"))}
        assert red == wanted - {len(lines) - 1} or red == wanted, f"{path.name}: {red} in place of {wanted}"
        counts = page.evaluate("({...document.querySelector('#counts').dataset})")
        assert int(counts["refusals"]) == len(printed.refusals(lines)), path.name
        assert int(counts["events"]) == len(printed.events(lines)), path.name
        refused += len(printed.refusals(lines))
    return f"{refused} refusals"


def rgb(color):
    return "rgb({}, {}, {})".format(*(int(color[at:at + 2], 16) for at in (1, 3, 5)))


def test_feeds():
    """Of `feed`: each frame in decode order where its dts is, and in presentation order from its pts to its end."""
    for path, lines, page in each_output({"feed"}):
        check_feed(path.name, lines, snapshot(page))


def check_feed(name, lines, shot):
    rows = {row["key"]: row for row in shot["rows"]}
    for track, frames in printed.frames(lines).items():
        decoded, shown_row = rows[f"decoded {track}"], rows[f"shown {track}"]
        assert [(number, int(start)) for number, _, start, *_ in decoded["frames"]] == [(n, dts) for n, _, dts, _, _ in frames]
        by_time = sorted(frames, key=lambda frame: frame[1])
        assert [(number, sync, int(start), int(end)) for number, sync, start, end, *_ in shown_row["frames"]] \
            == [(n, sync, pts, pts + dur) for n, pts, _, dur, sync in by_time], name
        for _, _, start, end, left, right, _ in decoded["frames"] + shown_row["frames"]:
            assert abs(place(shot, int(start)) - left) < 2 and abs(place(shot, int(end)) - right) < 2, name
        gaps = [(a[1] + a[3], b[1]) for a, b in zip(by_time, by_time[1:]) if a[1] + a[3] < b[1]]
        assert [(int(a), int(b)) for a, b, *_ in shown_row["gaps"]] == gaps
    nones = [line.split()[4] for line in lines if line.endswith(" none")]
    assert [time for row in shot["rows"] for time in row["none"]] == nones, name


FEED_WITH_A_GAP = """\
feed 0 {track} at 0 wanted 0
frame 0 pts 0 dts -2000 dur 2000 bytes 4 sync true
frame 1 pts 4500 dts 0 dur 2000 bytes 4 sync false
frame 2 pts 2000 dts 2000 dur 2000 bytes 4 sync false
end Lost
feed 0 {track} at 6500 none
"""


def test_feed_with_a_gap():
    """Two tracks, each with a gap of a quarter of a frame between two frames that are shown one after the other."""
    page = kit.open_page(VIEW)
    text = FEED_WITH_A_GAP.format(track=1) + FEED_WITH_A_GAP.format(track=2)
    show_text(page, text)
    shot = snapshot(page)
    check_feed("a feed with a gap", text.splitlines(), shot)
    assert [row[:4] for row in shot["gapRows"]] == [[f"shown {track}", "4000", "4500", "500"] for track in (1, 2)]
    assert all("0.25 frames" in row[4] for row in shot["gapRows"]), shot["gapRows"]
    page.close()


def headings(path):
    """The anchors that GitHub gives the headings of a page."""
    anchors = set()
    for line in path.read_text().splitlines():
        found = re.match(r"#{1,6} (.*)", line)
        if found:
            text = re.sub(r"\[([^\]]*)\]\([^)]*\)", r"\1", found[1]).lower().strip()
            anchor = re.sub(r"[^\w\- ]", "", text).replace(" ", "-")
            number, first = 0, anchor
            while anchor in anchors:
                number += 1
                anchor = f"{first}-{number}"
            anchors.add(anchor)
    return anchors


def check_link(address):
    """A link of the page leads to a file of the repository and to a heading of it; words in it stand there once."""
    path, _, rest = address.partition("#")
    heading, _, words = rest.partition(":~:text=")
    target = (kit.CLIENTS / path).resolve()
    assert target.is_file(), f"{address}: no such file"
    if heading:
        assert heading in headings(target), f"{address}: no such heading"
    if words:
        found = bytes.fromhex("".join(f"{byte:02x}" for byte in unquoted(words))).decode()
        assert target.read_text().lower().count(found.lower()) == 1, f"{address}: not once in the file"


def unquoted(text):
    out, at = bytearray(), 0
    while at < len(text):
        if text[at] == "%":
            out.append(int(text[at + 1:at + 3], 16))
            at += 3
        else:
            out += text[at].encode()
            at += 1
    return out


def test_faults_have_their_rows():
    """Each fault has a card with what to look at and a link to its row of docs/SCRIPTS.md."""
    count = 0
    for path, lines, page in each_output({"play", "ranges", "make", "feed", "fault"}):
        cards = page.evaluate("[...document.querySelectorAll('#faults > *')].map(card => [card.dataset.fault, card.innerText, [...card.querySelectorAll('a')].map(a => a.getAttribute('href'))])")
        assert [text for text, *_ in cards] == printed.faults(lines), path.name
        for text, words, links in cards:
            assert "Look at:" in words and links, path.name
            for address in links:
                assert address.startswith("../docs/SCRIPTS.md#")
                check_link(address)
            count += 1
    return f"{count} faults"


def test_all_links():
    """Every link that the page can show leads somewhere, and every row of the tables of faults is in the page word for word."""
    page = kit.open_page(VIEW)
    faults = page.evaluate("mseplay.FAULTS")
    for name, rows in rows_of_faults().items():
        assert faults.pop(name)[:2] == rows, f"fault {name} differs from docs/SCRIPTS.md"
    assert not faults, f"faults that docs/SCRIPTS.md does not have: {list(faults)}"
    for line, links in [("fault 9 Init Missing mvhd buffer 0 at 7", 1), ("fault 10 Moof NoTraf buffer 3 at 0", 1),
                        ("fault 24 Moov Missing stsz at 7", 2), ("fault 15 Sync buffer 0 at 7", 1)]:
        show_text(page, line + "\n")
        assert page.evaluate("document.querySelectorAll('#faults a').length") == links, line
    source = VIEW.read_text()
    for name in page.evaluate("Object.keys(mseplay.FAULTS)"):
        words, heading = page.call("name => [mseplay.FAULTS[name][2], Number(name) > 20 ? 'a-classic-file-as-fragments' : 'faults']", name)
        check_link(page.call("(heading, words) => mseplay.linkToWords('SCRIPTS.md', heading, words, '').getAttribute('href')", heading, words))
    for address in re.findall(r'"((?:SCRIPTS|GUIDE|MACHINE)\.md[^"$]*)"', source):
        check_link("../docs/" + address)
    for heading in page.evaluate("[...new Set(mseplay.ERRORS.map(([, , heading]) => heading))]"):
        check_link(f"../docs/SCRIPTS.md#{heading}")
    for heading in page.evaluate("[...new Set(Object.values(mseplay.CALLS).map(([, heading]) => heading))]"):
        check_link(f"../docs/MACHINE.md#{heading}")
    page.close()


def rows_of_faults():
    """The tables of docs/SCRIPTS.md on faults: of each name or number what it means and what to look at."""
    text = (kit.REPOSITORY / "docs/SCRIPTS.md").read_text()
    part = lambda heading: text.split(f"\n## {heading}\n")[1].split("\n## ")[0]
    rows, front = {}, ""
    for line in (part("Faults") + part("A classic file as fragments")).splitlines():
        front = {"`Init` is": "Init ", "`Moof` is": "Moof "}.get(line[:9], front)
        cells = [cell.strip() for cell in line.strip("|").split("|")] if line.startswith("| ") else []
        plain = [cell.replace("`", "") for cell in cells]
        if len(cells) == 4 and cells[0].isdigit():
            rows[cells[0]] = plain[2:]
        elif len(cells) == 3 and cells[0].startswith("`"):
            for name in re.findall(r"`([^`]+)`", cells[0]):
                rows[front + name.replace(" BOX", "")] = plain[1:]
    return rows

"""mseplay.html and files of media: what it says is wrong and where, the table of segments, and the bars."""

import json
import re
import tempfile
from pathlib import Path

import kit
import media_files
import printed
from test_page_text import SHOWN, VIEW, check_items, snapshot

SEGMENTS = """[...document.querySelectorAll("#segment-table tbody tr")].map(row => ({
  ...row.dataset, cells: [...row.cells].map(cell => cell.innerText) }))"""
ANSWER = """[...document.querySelectorAll("#answer li")].map(item => ({
  kind: item.dataset.kind, file: item.dataset.file, at: Number(item.dataset.at), text: item.innerText.replace(/ its row$/, "").trim() }))"""


def engine():
    """A skip where the engine's module is not there."""
    if not (kit.REPOSITORY / "js/mseplay.wasm").stat().st_size:
        raise kit.Skip("no js/mseplay.wasm")


def open_media(page, *paths, name=None):
    """Drops files and waits until their segments are shown."""
    engine()
    page.evaluate("scrollTo(0, 0)")
    page.drop("header", *paths)
    name = name or (Path(paths[0]).name if len(paths) == 1 else f"{len(paths)} files")
    page.wait_for(f"{SHOWN} && document.title.startsWith({json.dumps(name + ' ')}) && mseplay.shown.media?.took")


def answers(page):
    return page.evaluate(ANSWER)


def segments(page):
    return page.evaluate(SEGMENTS)


class Made:
    """A page over a file of bytes."""

    def __init__(self, name, data):
        self.folder = tempfile.TemporaryDirectory()
        self.path = Path(self.folder.name) / name
        self.path.write_bytes(data)
        self.page = kit.open_page(VIEW)

    def __enter__(self):
        open_media(self.page, self.path)
        return self.page

    def __exit__(self, *_):
        errors = self.page.errors
        self.page.close()
        self.folder.cleanup()
        assert not errors, errors


# What a person who has only this page has to find.


def test_gap_is_told():
    """In gap.mp4 a frame of sound is missing, before the second segment."""
    data = (kit.EXAMPLES / "gap.mp4").read_bytes()
    second = [found.start() - 4 for found in re.finditer(b"moof", data)][1]
    with Made("gap.mp4", data) as page:
        gap, = answers(page)
        assert gap["kind"] == "gap" and (gap["file"], gap["at"]) == ("gap.mp4", second)
        assert f"Segment 2, at byte {second:,} of gap.mp4, begins 1 frame (21.333 ms) late" in gap["text"], gap["text"]
        assert "the sound (track 2, mp4a) has a gap from 0.128 s to 0.149333 s" in gap["text"], gap["text"]
        assert "frames were lost between segment 1 and this one, or the decode time (tfdt) of this one is too late" in gap["text"]


def test_classic_is_told():
    """A classic file is one, and is made into fragments."""
    for name in ["classic.mp4", "classic.m4a"]:
        data = (kit.EXAMPLES / name).read_bytes()
        with Made(name, data) as page:
            first = answers(page)[0]
            assert first["kind"] == "classic" and first["at"] == data.index(b"moov") - 4, first
            assert f"{name} is a classic MP4 file and not a fragmented one: its moov, at byte {first['at']:,}, has no mvex" in first["text"], first["text"]
            assert "It was made into fragments by remux" in first["text"]
            fragments = {row["file"] for row in segments(page)}
            assert fragments == {f"{name} as fragments"}
            wanted = printed.ranges_in((kit.EXAMPLES / "plain.mp4.txt").read_text().splitlines()[1]) if name == "classic.mp4" else [(0, 423_360_000_000)]
            bars = next(row for row in snapshot(page)["rows"] if row["key"] == "buffer 0")["bars"]
            assert [(int(a), int(b)) for a, b, *_ in bars] == wanted


def test_late_segment_is_told():
    """The third segment of a stream begins a frame late."""
    data = media_files.third_late()
    third = [found.start() - 4 for found in re.finditer(b"moof", data)][2]
    with Made("stream.mp4", data) as page:
        gap, = answers(page)
        assert (gap["kind"], gap["at"]) == ("gap", third)
        assert f"Segment 3, at byte {third:,} of stream.mp4, begins 1 frame (40 ms) late: the pictures (track 1, avc1) have a gap from 0.4 s to 0.44 s" in gap["text"], gap["text"]


def test_missing_random_access_point_is_told():
    """The first group lacks its random access point: its frames are dropped."""
    data = media_files.first_unsynced()
    first = data.index(b"moof") - 4
    with Made("stream.mp4", data) as page:
        dropped = answers(page)[0]
        assert (dropped["kind"], dropped["at"]) == ("dropped", first)
        assert f"Of segment 1, at byte {first:,} of stream.mp4, all 5 frames of the pictures (track 1, avc1) were dropped" in dropped["text"], dropped["text"]
        assert "no random access point came before them: the first sample is not marked as a sync sample" in dropped["text"]


# The other sentences.


def test_nothing_wrong():
    for name in ["plain.mp4", "groups.mp4", "audio.mp4", "two-trafs.mp4"]:
        with Made(name, (kit.EXAMPLES / name).read_bytes()) as page:
            assert [one["kind"] for one in answers(page)] == ["fine"], f"{name}: {answers(page)}"


def test_parted_groups():
    """Pictures that a later segment fills in are no gap."""
    with Made("parted.mp4", media_files.parted()) as page:
        assert [one["kind"] for one in answers(page)] == ["fine"], answers(page)
        assert {row["odd"] for row in segments(page)} == {"false"}


def test_priming():
    """The priming of an encoder, which an edit list puts before 0, is told and is nothing wrong."""
    with Made("remuxed.m4a", (kit.EXAMPLES / "remuxed.m4a").read_bytes()) as page:
        fine, priming = answers(page)
        assert (fine["kind"], priming["kind"]) == ("fine", "priming") and "It is the priming of the encoder" in priming["text"], priming
        assert page.evaluate("document.querySelector('#answer h2').innerText") == "What is wrong: nothing"


FAULTY = {"samples-in-moov.mp4": "9 Init HasSamples", "base-offset.mp4": "10 Moof BaseOffset", "no-tfdt.mp4": "10 Moof NoTfdt", "no-ftyp.mp4": "4 MoovPlace",
          "size-zero.mp4": "1 SizeZero", "two-edits.mp4": "9 Init EditList", "alac.mp4": "12 Codec", "encrypted.mp4": "12 Codec"}


def test_faults_have_their_place():
    """The fault of each faulty file, at the byte at which the program tells it."""
    for name, fault in FAULTY.items():
        at = int(re.search(r"^fault .* at (\d+)$", (kit.EXAMPLES / f"{name}.txt").read_text(), re.M)[1])
        with Made(name, (kit.EXAMPLES / name).read_bytes()) as page:
            first = answers(page)[0]
            assert (first["kind"], first["at"]) == ("fault", at), first
            assert f"at byte {at:,} (0x{at:x}), fault {fault}: " in first["text"] and "Look at:" in first["text"], first["text"]
            row = next(row for row in segments(page) if int(row["from"]) <= at < int(row["to"]))
            assert row["odd"] == "true" and f"fault {fault} at {at:,}" in row["cells"][-1], row


def test_losses_before_0():
    """Frames that begin before 0 are counted where they were lost."""
    with Made("stream-copy.mp4", (kit.EXAMPLES / "stream-copy.mp4").read_bytes()) as page:
        first = answers(page)[0]
        assert first["kind"] == "dropped" and "Of segment 1," in first["text"] and "all 5 frames" in first["text"] and "begin before 0" in first["text"], first
    with Made("priming.mp4", (kit.EXAMPLES / "priming.mp4").read_bytes()) as page:
        first, late = answers(page)
        assert "1 of 4 frames of the sound (track 1, Opus) was dropped, since it begins before 0" in first["text"], first
        assert late["kind"] == "late" and "the first range begins at 0.0135 s" in late["text"], late


def test_overlap_is_told():
    with Made("overlap.mp4", media_files.overlapping()) as page:
        overlap = next(one for one in answers(page) if one["kind"] == "overlap")
        assert "Segment 3, at byte" in overlap["text"] and "begins 2 frames (80 ms) before the end of what came before it" in overlap["text"], overlap
        assert "5 frames of earlier segments were replaced" in overlap["text"] or "frames of earlier segments were replaced" in overlap["text"]


def test_cut_file():
    with Made("cut.mp4", (kit.EXAMPLES / "cut.mp4").read_bytes()) as page:
        cut, = answers(page)
        assert cut["kind"] == "cut" and "cut.mp4 ends in the middle of segment 1, at byte 760 of cut.mp4" in cut["text"], cut
        assert "its last box, mdat, says" in cut["text"]


def test_no_media():
    """An MP4 without an initialization segment says what is missing."""
    data = (kit.EXAMPLES / "plain.mp4").read_bytes()
    with Made("only.m4s", data[595:]) as page:
        assert "fault 6 NoInit" in answers(page)[0]["text"]
        assert "No initialization segment is among the files" in page.evaluate("document.querySelector('#answer').innerText")


# The table.


def test_segments_of_a_file():
    """A row for each segment: its bytes and boxes, what it added, frames held, and what lies between."""
    data = (kit.EXAMPLES / "gap.mp4").read_bytes()
    with Made("gap.mp4", data) as page:
        rows = segments(page)
        places = [0, *[found.start() - 4 for found in re.finditer(b"moof", data)], len(data)]
        assert [(int(row["from"]), int(row["to"])) for row in rows] == list(zip(places, places[1:]))
        assert [row["cells"][0] for row in rows] == ["init", "1", "2"]
        assert rows[0]["cells"][3].startswith("ftyp 24 · moov "), rows[0]
        second = [cell.split("\n") for cell in rows[2]["cells"]]
        assert [line for line in second[4] if line.strip()] == ["1 video avc1", "2 audio mp4a"]
        assert second[5] == ["0.12 – 0.24", "0.149333 – 0.256"], second
        assert second[6] == ["3 → 6 (has 3)", "6 → 11 (has 5)"], second
        assert second[7] == ["adjoins", "gap of 1 frame (21.333 ms)"], second


def test_table_agrees_with_the_block():
    """Added times and frames of all rows are together what the engine's block tells."""
    page = kit.open_page(VIEW)
    for name in ["plain.mp4", "gap.mp4", "groups.mp4", "audio.mp4", "late.mp4", "stream-copy.mp4", "two-trafs.mp4", "empty-edit.mp4"]:
        open_media(page, kit.EXAMPLES / name)
        rows = page.evaluate("JSON.parse(JSON.stringify(mseplay.shown.media.rows, (key, value) => typeof value === 'bigint' ? String(value) : value))")
        block = (kit.EXAMPLES / f"{name}.txt").read_text().splitlines()
        for line in block:
            found = re.match(r"track 0 (\d+) \S+ \S+ frames (\d+) ranges", line)
            if not found:
                continue
            tracks = [track for row in rows for track in row["tracks"] if track["id"] == int(found[1])]
            assert tracks[-1]["after"] == int(found[2]), name
            added = sorted((int(a), int(b)) for track in tracks for a, b in track["added"])
            assert joined(added) == printed.ranges_in(line), name
    page.close()


def joined(ranges):
    out = []
    for a, b in ranges:
        if out and out[-1][1] >= a:
            out[-1] = (out[-1][0], max(b, out[-1][1]))
        else:
            out.append((a, b))
    return out


def test_bars_of_a_file():
    """The bars are those of the block, and the lines are what `play` prints of the script that was done."""
    page = kit.open_page(VIEW)
    for name in ["gap.mp4", "groups.mp4", "stream-copy.mp4"]:
        open_media(page, kit.EXAMPLES / name)
        shot, lines = snapshot(page), (kit.EXAMPLES / f"{name}.txt").read_text().splitlines()
        for row in shot["rows"]:
            line = next((line for line in lines if line.startswith(f"{row['key']} ")), None)
            if line:
                check_items(f"{name} {row['key']}", shot, row["bars"], printed.ranges_in(line))
    assert not page.errors, page.errors
    page.close()


def test_files_of_a_packager():
    """Initialization segments first, pictures and sound each into a buffer, in the order of a person's counting."""
    page = kit.open_page(VIEW)
    with tempfile.TemporaryDirectory() as folder:
        paths = media_files.packager(Path(folder))
        open_media(page, *paths, name="26 files")
        rows = segments(page)
        for kind, buffer in [("video", "0"), ("audio", "1")]:
            mine = [row["file"] for row in rows if kind in row["file"]]
            assert mine == [f"init-{kind}.mp4", *(f"seg-{kind}-{at}.m4s" for at in range(1, 13))] or mine == [f"init-{kind}.mp4", *(f"seg-{kind}-{at}.m4s" for at in range(1, 13))][:len(mine)], mine
        ranges = {row["key"]: [(int(a), int(b)) for a, b, *_ in row["bars"]] for row in snapshot(page)["rows"]}
        whole = [(0, 12 * 5 * 512 * 141_120_000_000 // 12800)]
        assert sorted([ranges["buffer 0"], ranges["buffer 1"]]) == sorted([whole, [(0, 12 * 10 * 960 * 141_120_000_000 // 48000)]]), ranges
        assert [one["kind"] for one in answers(page)] == ["fine"], answers(page)
        page.drop("header", *reversed(paths))
        page.wait_for(f"{SHOWN} && mseplay.shown.media?.took && mseplay.shown.media.files[0].path.startsWith('init-audio')")
        page.evaluate("document.querySelector('#order button').click()")
        page.wait_for("document.querySelector('#order')?.dataset.asDropped === 'true'")
        dropped = page.evaluate("mseplay.shown.media.files.map(file => file.path).filter(path => path.startsWith('seg-video'))")
        kit.wait_until(lambda: [row["file"] for row in segments(page) if row["file"].startswith("seg-video")] == dropped,
                       "the order in the table")
        assert dropped != [f"seg-video-{at}.m4s" for at in range(1, 13)], dropped
        page.evaluate("scrollTo(0, 0)")
        page.drop("header", Path(folder))
        page.wait_for(f"{SHOWN} && document.querySelectorAll('#segment-table tbody tr').length === 26")
    assert not page.errors, page.errors
    page.close()


def test_adts_file():
    with Made("sound.aac", media_files.adts(50)) as page:
        assert answers(page)[0]["kind"] == "fine" and "50 frames of sound" in answers(page)[0]["text"], answers(page)
        rows = snapshot(page)["rows"]
        assert any(row["key"] == "track 0 1" for row in rows)


# The position.


def test_position():
    """A seek tells level, events and what a decoder is given; a click into a lane seeks too."""
    with Made("groups.mp4", (kit.EXAMPLES / "groups.mp4").read_bytes()) as page:
        page.evaluate("document.querySelector('#position-time').select()")
        page.type("0.45")
        page.press("Enter")
        page.wait_for("document.querySelector('.fed-track') !== null")
        feed = (kit.EXAMPLES / "feed.txt").read_text().splitlines()
        says = page.evaluate("({...document.querySelector('#position-says').dataset, text: document.querySelector('#position-says').innerText})")
        assert says["level"] in "1234" and "seeking" in says["events"] and "position 0.45 s" in says["text"], says
        fed = page.evaluate("[...document.querySelectorAll('.fed-track tbody tr')].map(row => row.cells[0].innerText)")
        assert [text.split()[0] for text in fed] == ["10", "11", "12", "13", "14"], fed
        assert page.evaluate("document.querySelector('.fed-track').dataset.wanted") == "13"
        box = page.evaluate("(() => { const box = document.querySelector('#axis').getBoundingClientRect(); return [box.left, box.width]; })()")
        wanted = page.evaluate("Number(mseplay.page.view.from + (mseplay.page.view.to - mseplay.page.view.from) / 4n)")
        lane = page.evaluate("(() => { const box = document.querySelector('#rows .lane').getBoundingClientRect(); return box.top + 3; })()")
        for kind in ("mousePressed", "mouseReleased"):
            page.ask("Input.dispatchMouseEvent", type=kind, x=box[0] + box[1] / 4, y=lane, button="left", clickCount=1)
        page.wait_for("mseplay.shown.media.lines.filter(line => line.startsWith('call seek ')).length === 2")
        page.wait_for(SHOWN)
        told = int(page.evaluate("mseplay.shown.media.lines.findLast(line => line.startsWith('call seek '))").split()[2].rstrip(":"))
        assert abs(told - wanted) < 141_120_000_000 / 100, (told, wanted)

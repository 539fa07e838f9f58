#!/usr/bin/env python3
"""Writes the media of crates/case_runs/data/media: small files that the scripts and lines there name.

    make_media.py [FOLDER]

FOLDER is that one where it is left out. Boxes are made by make.py; a file with a fault is mostly one without, with a
box changed. The other files of that folder are kept as they are.
"""
import os
import struct
import sys

import make
from make import FTYP, OTHER, SYNC, Run, Track, box, full, moov, pictures, segment, sounds, words

HERE = os.path.dirname(os.path.abspath(__file__))
MEDIA = os.path.join(HERE, "..", "crates", "case_runs", "data", "media")
STSD = "moov/trak/mdia/minf/stbl/stsd"


def boxes(content):
    """The boxes of a row, each with its kind and payload."""
    at = 0
    while at < len(content):
        size, kind = struct.unpack(">I4s", content[at:at + 8])
        yield kind, content[at + 8:at + size]
        at += size


def changed(content, path, change):
    """The row with the first box at a path, such as moov/trak/mdia, changed: `change` gives the boxes in its place."""
    name, _, rest = path.encode().partition(b"/")
    made, done = [], False
    for kind, payload in boxes(content):
        if kind != name or done:
            made.append(box(kind, payload))
        elif rest:
            made.append(box(kind, changed(payload, rest.decode(), change)))
        else:
            made.append(change(kind, payload))
        done = done or kind == name
    return b"".join(made)


def without(content, path):
    return changed(content, path, lambda kind, payload: b"")


def cut_box(content, path, length):
    """The same with that box's payload cut to a length."""
    return changed(content, path, lambda kind, payload: box(kind, payload[:length]))


def patched(content, path, at, value):
    """The same with bytes of that box's payload replaced."""
    return changed(content, path, lambda kind, payload: box(kind, payload[:at] + value + payload[at + len(value):]))


def u32(value):
    return struct.pack(">I", value)


VIDEO, SOUND = make.video(), Track(1, b"soun", 48000, b"mp4a")
THOUSANDTHS = Track(1, b"vide", 1000, b"avc1")
INIT = FTYP + moov(VIDEO)
PLAIN = make.plain(VIDEO)
MOOF = segment(1, Run(1, 0, 3000, pictures(3)))
CLASSIC = FTYP + box(b"mdat", bytes(12)) + moov(make.video(samples=True), fragmented=False)
BOTH = [Track(1, b"vide", 90000, b"avc1"), Track(2, b"soun", 48000, b"mp4a")]
TENTHS = FTYP + moov(THOUSANDTHS)


def large(kind, size):
    """The header of a box whose size has 64 bits."""
    return struct.pack(">I4sQ", 1, kind, size)


def lone_moof(traf, number=1):
    return box(b"moof", full(b"mfhd", 0, 0, words(number)), *([traf] if traf else []))


def traf(*parts):
    return box(b"traf", *parts)


def tfhd(flags=0x20000, number=1, rest=b""):
    return full(b"tfhd", 0, flags, words(number), rest)


TFDT = full(b"tfdt", 1, 0, struct.pack(">Q", 0))


def edited(entries, version=0):
    """plain.mp4 with this edit list: entries of duration, media time and rate."""
    form = ">QqI" if version else ">IiI"
    rows = b"".join(struct.pack(form, *entry) for entry in entries)
    edts = box(b"edts", full(b"elst", version, 0, words(len(entries)), rows))
    return changed(PLAIN, "moov/trak/tkhd", lambda kind, payload: box(kind, payload) + edts)


def group(*later):
    """Pictures of one group, by how much later each is shown than it is decoded."""
    return [(OTHER if i else SYNC, by) for i, by in enumerate(later)]


# shown at 0, 0.3, 0.1 and 0.2 s, where a frame has a tenth of a second at a scale of 1,000
REORDERED = group(0, 200, -100 & 0xFFFFFFFF, -100 & 0xFFFFFFFF)


def tenths(number, start, samples, **more):
    """A media segment of frames of a tenth of a second, from a tenth on."""
    return segment(number, Run(1, start * 100, 100, samples, **more))


def seconds(start, samples, track=1, size=4):
    return segment(1, Run(track, start * 1000, 1000, samples, size=size))


def tables(change):
    return changed(CLASSIC, "moov/trak/mdia/minf/stbl", lambda kind, payload: box(kind, change(payload)))


def set_box(payload, name, value):
    return changed(payload, name, lambda kind, old: box(kind, value))


def equal_samples(size, count):
    """The classic file with so many samples of one size, all in its one chunk. Only the tables tell of them."""
    def change(stbl):
        for name, value in (("stts", words(0, 1, count, 1)), ("stsc", words(0, 1, 1, count, 1)),
                            ("stsz", words(0, size, count))):
            stbl = set_box(stbl, name, value)
        return stbl
    return tables(change)


AUDIO_INIT = FTYP + moov(Track(1, b"soun", 1000, b"mp4a"))
MANY = [Track(number, b"vide", 90000, b"avc1") for number in range(1, 66)]

MEDIA_FILES = {
    # pictures of a tenth of a second at a scale of 1,000: a group of four, and the random access point of another
    "two-groups.mp4": TENTHS + tenths(1, 0, pictures(3) + pictures(1)),
    # two groups of four pictures and of two
    "groups-of-tenths.mp4": TENTHS + tenths(1, 0, pictures(4)) + tenths(2, 4, pictures(2)),
    # a group of four that are not shown in the order in which they are decoded
    "reordered.mp4": TENTHS + tenths(1, 0, REORDERED),
    # the same, a group of two, and then a random access point over the picture that is decoded second
    "replaced.mp4": TENTHS + tenths(1, 0, REORDERED + pictures(2)) + tenths(1, 3, pictures(1)),
    # three pictures of a second, each of them a random access point, and one such second at another time
    "three-seconds.mp4": TENTHS + seconds(0, sounds(3)),
    "second-at-2.mp4": seconds(2, pictures(1)),
    "second-at-10.mp4": seconds(10, pictures(1)),
    # a picture that is no random access point, twice the duration behind the second before it, and a unit later
    "not-sync-at-4.mp4": seconds(4, [(OTHER, 0)]),
    "not-sync-later.mp4": segment(1, Run(1, 4001, 1000, [(OTHER, 0)])),
    # a frame of one of two tracks
    "video-of-1.mp4": segment(1, Run(1, 0, 3000, pictures(3))),
    # ten pictures of a second with a random access point at each fifth
    "ten-seconds.mp4": TENTHS + seconds(0, pictures(5) + pictures(5)),
    # one picture of a thousand bytes
    "large-frame.mp4": INIT + segment(1, Run(1, 0, 3000, pictures(1), size=1000)),
    # pictures and sound of a second each, two from 0 on with an initialization segment, and two from 4 s on
    "video-0.mp4": TENTHS + seconds(0, pictures(2)),
    "video-4.mp4": seconds(4, pictures(2)),
    "sound-0.mp4": AUDIO_INIT + seconds(0, sounds(2)),
    "sound-4.mp4": seconds(4, sounds(2)),
    # pictures and sound in one movie fragment, and an empty box behind its media data
    "two-tracks.mp4": FTYP + moov(*BOTH, following=3)
    + segment(1, Run(1, 0, 3000, pictures(3)), Run(2, 0, 1024, sounds(5), size=3)) + box(b"mfra"),
    # pictures and sound of which the sound begins a second later
    "late-sound.mp4": FTYP + moov(Track(1, b"vide", 1000, b"avc1"), Track(2, b"soun", 1000, b"mp4a"))
    + segment(1, Run(1, 0, 1000, pictures(3)), Run(2, 1000, 1000, sounds(3))),
    # frames of sound of 100 units of a thousandth; one of them again, half a frame later
    "sound-of-tenths.mp4": AUDIO_INIT + tenths(1, 0, sounds(4)),
    "sound-half-later.mp4": segment(2, Run(1, 150, 100, sounds(1))),
    "sound-same-start.mp4": segment(2, Run(1, 100, 50, sounds(1))),
    # a picture at 0 to 0.1 s again, and one that is a microsecond later, and a unit less than that
    "picture-at-0.mp4": tenths(2, 0, pictures(1)),
    "fine-pictures.mp4": FTYP + moov(Track(1, b"vide", 10000000, b"avc1"))
    + segment(1, Run(1, 0, 1000000, pictures(1))),
    "fine-9.mp4": segment(2, Run(1, 9, 1000000, pictures(1))),
    "fine-10.mp4": segment(2, Run(1, 10, 1000000, pictures(1))),
    # an initialization segment with a duration of 2 s
    "with-duration.mp4": patched(FTYP + moov(THOUSANDTHS), "moov/mvhd", 16, u32(2000)) + seconds(0, pictures(1)),
    # the same tracks with another codec, another number, or another one beside them
    "other-codec.mp4": FTYP + moov(Track(1, b"vide", 90000, b"hev1")) + MOOF,
    "other-number.mp4": FTYP + moov(Track(7, b"vide", 90000, b"avc1")) + segment(1, Run(7, 9000, 3000, pictures(3))),
    "sound-beside.mp4": FTYP + moov(*BOTH),
    "two-videos.mp4": FTYP + moov(Track(1, b"vide", 90000, b"avc1"), Track(2, b"vide", 90000, b"avc1")),
    "two-videos-swapped.mp4": FTYP + moov(Track(2, b"vide", 90000, b"avc1"), Track(1, b"vide", 90000, b"avc1")),
    "two-videos-renumbered.mp4": FTYP + moov(Track(1, b"vide", 90000, b"avc1"), Track(3, b"vide", 90000, b"avc1")),
    # a track that is neither picture nor sound, alone and beside a video track
    "text-alone.mp4": FTYP + moov(Track(1, b"text", 90000, b"tx3g")),
    "text-beside.mp4": FTYP + moov(VIDEO, Track(2, b"text", 90000, b"tx3g"))
    + segment(1, Run(1, 0, 3000, pictures(1)), Run(2, 0, 3000, pictures(1))),

    # a top-level box
    "box-size.mp4": PLAIN + struct.pack(">I4s", 7, b"free"),
    "box-size-64.mp4": PLAIN + large(b"free", 15),
    "unknown-boxes.mp4": box(b"free", bytes(4)) + INIT + box(b"sidx", bytes(9)) + MOOF + large(b"skip", 20) + bytes(4),
    "moov-16-mib.mp4": FTYP + struct.pack(">I4s", 1 << 24, b"moov"),
    "moov-too-large.mp4": FTYP + struct.pack(">I4s", (1 << 24) + 1, b"moov"),
    "moof-16-mib.mp4": INIT + struct.pack(">I4s", 1 << 24, b"moof"),
    "moof-too-large.mp4": INIT + struct.pack(">I4s", (1 << 24) + 1, b"moof"),
    "box-2-40.mp4": PLAIN + large(b"free", 1 << 40),
    "box-too-large.mp4": PLAIN + large(b"free", (1 << 40) + 1),
    "segment-128-mib.mp4": INIT + MOOF[:-20] + struct.pack(">I4s", (1 << 27) - (len(MOOF) - 20), b"mdat"),
    "segment-too-large.mp4": INIT + MOOF[:-20] + struct.pack(">I4s", (1 << 27) - (len(MOOF) - 20) + 1, b"mdat"),
    "size-0-alone.mp4": struct.pack(">I4s", 0, b"free"),
    # a box that is out of place is that first, whatever its size
    "moov-too-large-first.mp4": struct.pack(">I4s", (1 << 24) + 1, b"moov"),
    "moov-too-large-behind-styp.mp4": box(b"styp") + struct.pack(">I4s", (1 << 24) + 1, b"moov"),
    "moof-too-large-behind-ftyp.mp4": FTYP + struct.pack(">I4s", (1 << 24) + 1, b"moof"),
    "moof-too-large-first.mp4": struct.pack(">I4s", (1 << 24) + 1, b"moof"),
    # a box behind a movie fragment box ends 2^27 bytes after the first byte of that one, or a byte later
    "box-to-128-mib.mp4": INIT + MOOF[:-20] + struct.pack(">I4s", (1 << 27) - 136, b"free"),
    "box-past-128-mib.mp4": INIT + MOOF[:-20] + struct.pack(">I4s", (1 << 27) - 136 + 1, b"free"),
    "second-box-to-128-mib.mp4": INIT + MOOF[:-20] + box(b"free") + struct.pack(">I4s", (1 << 27) - 144, b"free"),
    "second-box-past-128-mib.mp4": INIT + MOOF[:-20] + box(b"free") + struct.pack(">I4s", (1 << 27) - 144 + 1, b"free"),
    "moov-past-128-mib.mp4": INIT + MOOF[:-20] + struct.pack(">I4s", 1 << 27, b"moov"),
    # a frame in each of two media data boxes, of which the first has a 64-bit size and four bytes more
    "mdat-of-64-bits.mp4": INIT + lone_moof(traf(tfhd(), TFDT, *(
        full(b"trun", 1, 0xF01, words(1, place, 3000, 4, SYNC, 0)) for place in (156, 180))))
    + large(b"mdat", 24) + b"abcd----" + box(b"free") + box(b"mdat", b"wxyz"),
    "moov-again.mp4": PLAIN + moov(VIDEO),
    "init-again.mp4": PLAIN + INIT + segment(2, Run(1, 9000, 3000, pictures(3))),
    "moof-behind-ftyp.mp4": FTYP + MOOF,
    "styp.mp4": INIT + box(b"styp", b"msdh", words(0)) + MOOF,
    "ftyp-twice.mp4": FTYP + INIT + MOOF,
    "moof-in-segment.mp4": INIT + MOOF[:-20] + MOOF,
    "ftyp-in-segment.mp4": INIT + MOOF[:-20] + INIT,
    "styp-in-segment.mp4": INIT + MOOF[:-20] + box(b"styp"),
    "moov-in-segment.mp4": INIT + MOOF[:-20] + moov(VIDEO),
    "short-mdat.mp4": INIT + MOOF[:-20] + box(b"mdat", bytes(8)) + MOOF,
    "two-mdats.mp4": INIT + MOOF + box(b"mdat", bytes(3)),
    "outside-mdat.mp4": INIT + patched(MOOF, "moof/traf/trun", 8, u32(len(MOOF) - 16)),
    "in-mdat-later.mp4": INIT + patched(MOOF, "moof/traf/trun", 8, u32(len(MOOF) - 4))[:-20] + box(b"mdat", bytes(20)),

    # the movie box
    **{f"missing-{name.rpartition('/')[2]}.mp4": without(PLAIN, f"moov/{name}") for name in (
        "mvhd", "trak/tkhd", "trak/mdia", "trak/mdia/hdlr", "trak/mdia/mdhd", "trak/mdia/minf", "trak/mdia/minf/stbl",
        "trak/mdia/minf/stbl/stsd")},
    "empty-stsd.mp4": cut_box(patched(PLAIN, STSD, 4, u32(0)), STSD, 8),
    "short-mvhd.mp4": cut_box(PLAIN, "moov/mvhd", 16),
    "short-tkhd.mp4": cut_box(PLAIN, "moov/trak/tkhd", 12),
    "no-trak-row.mp4": cut_box(PLAIN, "moov/trak", 90),
    "zero-movie-scale.mp4": patched(PLAIN, "moov/mvhd", 12, u32(0)),
    "zero-track-scale.mp4": patched(PLAIN, "moov/trak/mdia/mdhd", 12, u32(0)),
    "duplicate-track.mp4": FTYP + moov(VIDEO, Track(1, b"soun", 48000, b"mp4a")),
    "tracks-64.mp4": FTYP + moov(*MANY[:64]),
    "tracks-65.mp4": FTYP + moov(*MANY),
    "edit-at-rate-2.mp4": edited([(100, 0, 0x20000)]),
    "empty-edits-alone.mp4": edited([(100, -1, 0x10000)]),
    "edits-1000.mp4": edited([(1, -1, 0x10000)] * 999 + [(0, 0, 0x10000)]),
    "edits-1001.mp4": edited([(1, -1, 0x10000)] * 1000 + [(0, 0, 0x10000)]),
    "edit-in-64-bits.mp4": edited([(500, -1, 0x10000), (0, 3000, 0x10000)], version=1),

    # the movie fragment
    "no-traf.mp4": INIT + lone_moof(b""),
    "no-tfhd.mp4": INIT + lone_moof(traf(TFDT)),
    "short-tfhd.mp4": INIT + cut_box(MOOF, "moof/traf/tfhd", 4),
    "trun-short.mp4": INIT + patched(MOOF, "moof/traf/trun", 4, u32(4)),
    "unknown-track.mp4": INIT + segment(1, Run(2, 0, 3000, pictures(3))),
    "too-many-samples.mp4": INIT + lone_moof(traf(tfhd(), TFDT, full(b"trun", 0, 0, words((1 << 20) + 1)))),
    "place-before-moof.mp4": INIT + patched(MOOF, "moof/traf/trun", 8, struct.pack(">i", -1)),
    "no-trun.mp4": INIT + lone_moof(traf(tfhd(), TFDT)),
    "defaults-of-tfhd.mp4": INIT + lone_moof(traf(
        tfhd(0x20038, rest=words(3000, 4, SYNC)), TFDT, full(b"trun", 0, 1, words(2), struct.pack(">i", 108))))
    + box(b"mdat", bytes(8)),

    # classic files
    "classic-no-moov.mp4": FTYP + box(b"mdat", bytes(12)),
    "classic-cut.mp4": CLASSIC[:-1],
    "classic-bad-box.mp4": CLASSIC + struct.pack(">I4s", 4, b"free"),
    "classic-few-times.mp4": tables(lambda stbl: set_box(stbl, b"stts".decode(), words(0, 1, 2, 3000))),
    "classic-outside.mp4": tables(lambda stbl: set_box(stbl, "stco", words(0, 1, 0xFFFFFFFF))),
    "classic-at-the-end.mp4": tables(lambda stbl: set_box(stbl, "stco", words(0, 1, len(CLASSIC) - 12))),
    "classic-behind-the-end.mp4": tables(lambda stbl: set_box(stbl, "stco", words(0, 1, len(CLASSIC) - 11))),
    **{f"classic-without-{name}.mp4": tables(lambda stbl, name=name: without(stbl, name))
       for name in ("stts", "stsz", "stsc", "stco")},
    "classic-without-stss.mp4": tables(lambda stbl: without(stbl, "stss")),
    "classic-short-stsz.mp4": tables(lambda stbl: set_box(stbl, "stsz", words(0, 4, 3)[:8])),
    "classic-zero-scale.mp4": patched(CLASSIC, "moov/trak/mdia/mdhd", 12, u32(0)),
    "classic-large-sample.mp4": tables(lambda stbl: set_box(stbl, "stsz", words(0, (1 << 26) + 1, 3))),
    "classic-many-samples.mp4": equal_samples(1, (1 << 22) + 1),
    "classic-2-22-samples.mp4": equal_samples(1, 1 << 22),
    "classic-many-bytes.mp4": equal_samples(1 << 26, 17),
    "classic-2-30-bytes.mp4": equal_samples(1 << 26, 16),
    "classic-many-samples-in-one-table.mp4": tables(lambda stbl: set_box(stbl, "stsz", words(0, 1, (1 << 22) + 1))),
    "classic-text.mp4": patched(CLASSIC, "moov/trak/mdia/hdlr", 8, b"text"),
    "classic-number-0.mp4": patched(CLASSIC, "moov/trak/tkhd", 12, u32(0)),
    "classic-two-edits.mp4": changed(CLASSIC, "moov/trak/tkhd", lambda kind, payload: box(kind, payload) + box(
        b"edts", full(b"elst", 0, 0, words(2, 40, 0, 0x10000, 60, 6000, 0x10000)))),

    # ADTS frames of ten bytes, with 1,024 samples at 44,100 Hz
    "frames.aac": 2 * bytes.fromhex("fff15080015ffc000000"),
    "tag-between.aac": (b"TAG" + bytes(125)).join(2 * [bytes.fromhex("fff15080015ffc000000")]),
    "tagged.aac": b"ID3" + bytes([4, 0, 0, 0, 0, 0, 2, 0, 0]) + 2 * bytes.fromhex("fff15080015ffc000000"),
}


def main():
    folder = sys.argv[1] if len(sys.argv) > 1 else MEDIA
    os.makedirs(folder, exist_ok=True)
    for name, content in MEDIA_FILES.items():
        with open(os.path.join(folder, name), "wb") as out:
            out.write(content)


if __name__ == "__main__":
    main()

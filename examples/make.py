#!/usr/bin/env python3
"""Writes the files right in crates/case_runs/data that no packager made.

    make.py [FOLDER]

FOLDER is that one where it is left out. The samples have bytes of 0 alone, since nothing is decoded.
"""
import os
import struct
import sys

HERE = os.path.dirname(os.path.abspath(__file__))
SYNC, OTHER = 0x02000000, 0x01010000
# five pictures in order of decoding: how many pictures later than it is decoded each is shown, two added to all
GROUP = [2, 5, 2, 0, 1]


def box(kind, *parts):
    payload = b"".join(parts)
    return struct.pack(">I4s", 8 + len(payload), kind) + payload


def full(kind, version, flags, *parts):
    return box(kind, struct.pack(">I", version << 24 | flags), *parts)


def words(*numbers):
    return struct.pack(f">{len(numbers)}I", *numbers)


MATRIX = words(0x10000, 0, 0, 0, 0x10000, 0, 0, 0, 0x40000000)
FTYP = box(b"ftyp", b"iso6", words(0), b"iso6mp41")


class Track:
    """A track of the movie box: edits are pairs of duration and media time, samples those of a classic file."""

    def __init__(self, number, kind, scale, codec, edits=(), samples=False):
        self.number, self.kind, self.scale, self.codec = number, kind, scale, codec
        self.edits, self.samples = edits, samples

    def entry(self):
        if self.kind == b"vide":
            return box(self.codec, bytes(6), struct.pack(">H", 1), bytes(20), words(0x480000, 0x480000, 0),
                       struct.pack(">H", 1), bytes(32), struct.pack(">Hh", 24, -1))
        rate = self.scale << 16 if self.scale < 65536 else 0
        return box(self.codec, bytes(6), struct.pack(">H", 1), bytes(8), struct.pack(">HH", 2, 16), words(0, rate))

    # of three samples of 3000 units and 4 bytes, in one chunk at 32, where the track has samples
    def tables(self):
        if not self.samples:
            return [full(b"stts", 0, 0, words(0)), full(b"stsc", 0, 0, words(0)),
                    full(b"stsz", 0, 0, words(0, 0)), full(b"stco", 0, 0, words(0))]
        return [full(b"stts", 0, 0, words(1, 3, 3000)), full(b"stss", 0, 0, words(1, 1)),
                full(b"stsc", 0, 0, words(1, 1, 3, 1)), full(b"stsz", 0, 0, words(4, 3)),
                full(b"stco", 0, 0, words(1, 32))]

    def box(self):
        video = self.kind == b"vide"
        tkhd = full(b"tkhd", 0, 7, words(0, 0, self.number, 0, 0, 0, 0, 0),
                    words(0 if video else 0x01000000), MATRIX, words(0, 0))
        edits = b"".join(struct.pack(">IiI", length, time, 0x10000) for length, time in self.edits)
        edts = box(b"edts", full(b"elst", 0, 0, words(len(self.edits)), edits)) if self.edits else b""
        mdhd = full(b"mdhd", 0, 0, words(0, 0, self.scale, 0, 0x55C40000))
        hdlr = full(b"hdlr", 0, 0, words(0), self.kind, bytes(13))
        head = full(b"vmhd", 0, 1, bytes(8)) if video else full(b"smhd", 0, 0, bytes(4))
        dinf = box(b"dinf", full(b"dref", 0, 0, words(1), full(b"url ", 0, 1)))
        stbl = box(b"stbl", full(b"stsd", 0, 0, words(1), self.entry()), *self.tables())
        return box(b"trak", tkhd, edts, box(b"mdia", mdhd, hdlr, box(b"minf", head, dinf, stbl)))


def moov(*tracks, fragmented=True, following=2):
    mvhd = full(b"mvhd", 0, 0, words(0, 0, 1000, 0, 0x10000, 0x01000000, 0, 0), MATRIX, bytes(24), words(following))
    trexes = [full(b"trex", 0, 0, words(track.number, 1, 0, 0, 0)) for track in tracks]
    mvex = box(b"mvex", *trexes) if fragmented else b""
    return box(b"moov", mvhd, *(track.box() for track in tracks), mvex)


class Run:
    """The samples of a track fragment: pairs of flags and composition offset, each of one duration and one size."""

    def __init__(self, number, start, duration, samples, flags=0x20000, tfdt=True, size=4):
        self.number, self.start, self.duration, self.samples = number, start, duration, samples
        self.flags, self.tfdt, self.size = flags, tfdt, size

    def box(self, place):
        base = struct.pack(">Q", 0) if self.flags & 1 else b""
        rows = b"".join(words(self.duration, self.size, flags, later) for flags, later in self.samples)
        tfdt = full(b"tfdt", 1, 0, struct.pack(">Q", self.start)) if self.tfdt else b""
        return box(b"traf", full(b"tfhd", 0, self.flags, words(self.number), base), tfdt,
                   full(b"trun", 1, 0xF01, words(len(self.samples)), struct.pack(">i", place), rows))


def segment(number, *runs):
    def with_places(places):
        return box(b"moof", full(b"mfhd", 0, 0, words(number)), *(run.box(at) for run, at in zip(runs, places)))

    place, places = len(with_places([0] * len(runs))) + 8, []
    for run in runs:
        # without the flag a later track fragment counts from the end of the data before it
        places.append(place if run.flags & 0x20000 or not places else 0)
        place += run.size * len(run.samples)
    return with_places(places) + box(b"mdat", bytes(sum(run.size * len(run.samples) for run in runs)))


def pictures(count):
    return [(OTHER if i else SYNC, 0) for i in range(count)]


def sounds(count):
    return [(SYNC, 0)] * count


def group(scale):
    return [(OTHER if i else SYNC, later * scale) for i, later in enumerate(GROUP)]


def video(edits=(), codec=b"avc1", **more):
    return Track(1, b"vide", 90000, codec, edits, **more)


def plain(track, flags=0x20000, tfdt=True):
    return FTYP + moov(track) + segment(1, Run(1, 0, 3000, pictures(3), flags, tfdt))


def groups(track, starts):
    return FTYP + moov(track) + b"".join(
        segment(i + 1, Run(1, start * 512, 512, group(512))) for i, start in enumerate(starts))


# the size of the last box is 0
def size_zero(file):
    at = file.rindex(b"mdat") - 4
    return file[:at] + words(0) + file[at + 4:]


def two_tracks():
    return FTYP + moov(Track(1, b"vide", 12800, b"avc1"), Track(2, b"soun", 48000, b"mp4a"))


FILES = {
    "plain.mp4": plain(video()),
    "classic.mp4": FTYP + box(b"mdat", bytes(12)) + moov(video(samples=True), fragmented=False),
    "gap.mp4": two_tracks()
    + segment(1, Run(1, 0, 512, pictures(3)), Run(2, 0, 1024, sounds(6)))
    + segment(2, Run(1, 1536, 512, pictures(3)), Run(2, 7168, 1024, sounds(5))),
    "late.mp4": groups(Track(1, b"vide", 12800, b"avc1"), [0]),
    "groups.mp4": groups(Track(1, b"vide", 12800, b"avc1", [(0, 1024)]), [0, 5, 10]),
    "stream-copy.mp4": groups(Track(1, b"vide", 12800, b"avc1", [(0, 2560)]), [0, 5, 10]),
    "empty-edit.mp4": plain(video([(500, -1), (0, 0)])),
    "priming.mp4": FTYP + moov(Track(1, b"soun", 48000, b"Opus", [(0, 312)]))
    + segment(1, Run(1, 0, 960, sounds(4))),
    "two-trafs.mp4": two_tracks()
    + segment(1, Run(1, 0, 512, pictures(3), 0), Run(2, 0, 1024, sounds(6), 0)),
    "samples-in-moov.mp4": FTYP + moov(video(samples=True)) + box(b"mdat", bytes(12)),
    "base-offset.mp4": plain(video(), flags=1),
    "no-tfdt.mp4": plain(video(), tfdt=False),
    "no-ftyp.mp4": plain(video())[len(FTYP):],
    "size-zero.mp4": size_zero(plain(video()) + segment(2, Run(1, 9000, 3000, pictures(3)))),
    "two-edits.mp4": plain(video([(40, 0), (60, 6000)])),
    "alac.mp4": FTYP + moov(Track(1, b"soun", 48000, b"alac")) + segment(1, Run(1, 0, 4096, sounds(2))),
    "encrypted.mp4": plain(video(codec=b"encv")),
    "note.bin": b"This is no MP4.\n",
}


def main():
    folder = sys.argv[1] if len(sys.argv) > 1 else os.path.join(HERE, "..", "crates", "case_runs", "data")
    for name, content in FILES.items():
        with open(os.path.join(folder, name), "wb") as out:
            out.write(content)


if __name__ == "__main__":
    main()

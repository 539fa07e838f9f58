#!/usr/bin/env python3
"""Makes the files that ranges.sh, store.sh and remux.sh measure.

    make.py samples COUNT SIZE FILE   COUNT samples of one video track in B-frame order, of SIZE bytes on average
    make.py bytes COUNT SIZE FILE     COUNT samples of SIZE bytes each
    make.py classic COUNT SIZE FILE   COUNT samples in B-frame order, of SIZE bytes on average, as a classic file
    make.py tracks TRACKS COUNT FILE  COUNT samples of 16 bytes, of each track in turn a hundred
    make.py turns TRACKS COUNT FILE   the same, of each track in turn one
    make.py store CASE COUNT FILE     COUNT samples that come as CASE says: twice, sound-twice, backwards, gaps-filled,
                                      gaps-backwards, random, anywhere, anywhere-twice

The initialization segment is that of crates/case_runs/data/plain.mp4: one video track, number 1, 90000 units a second; where there are
more tracks, they are like it. A media
segment, or a chunk of a classic file, has at most 100 samples of 3000 units; each tenth sample is a random access point.
"""
import importlib.util
import os
import random
import struct
import sys

HERE = os.path.dirname(os.path.abspath(__file__))
UNITS = 3000
PER_CHUNK = 100
# the order of presentation of a group of ten samples that are stored in order of decoding: I P B B P B B P B B
SHOWN = [0, 3, 1, 2, 6, 4, 5, 9, 7, 8]


def maker():
    """The module examples/make.py."""
    spec = importlib.util.spec_from_file_location("examples_make", os.path.join(HERE, "..", "examples", "make.py"))
    module = importlib.util.module_from_spec(spec)
    spec.loader.exec_module(module)
    return module


def box(kind, payload):
    return struct.pack(">I4s", 8 + len(payload), kind) + payload


def moof(number, start, sizes, shown, sync, units=UNITS):
    def with_offset(offset):
        run = struct.pack(">IIi", 0x01000F01, len(sizes), offset)
        for i, size in enumerate(sizes):
            at = start + i
            flags = 0x02000000 if sync(at) else 0x01010000
            run += struct.pack(">IIIi", units, size, flags, round((shown(at) - at) * units))
        traf = box(b"tfhd", struct.pack(">II", 0x00020000, 1))
        traf += box(b"tfdt", struct.pack(">IQ", 0x01000000, start * units))
        traf += box(b"trun", run)
        return box(b"moof", box(b"mfhd", struct.pack(">II", 0, number)) + box(b"traf", traf))

    return with_offset(len(with_offset(0)) + 8)


def segment(start, sizes, shown=lambda i: i, sync=lambda i: i % 10 == 0, units=UNITS):
    return moof(1, start, sizes, shown, sync, units) + box(b"mdat", b"\x55" * sum(sizes))


def write(file, segments):
    here = os.path.dirname(os.path.abspath(__file__))
    with open(os.path.join(here, "..", "crates", "case_runs", "data", "plain.mp4"), "rb") as plain:
        init = plain.read()[:595]
    with open(file, "wb") as out:
        out.write(init)
        for part in segments:
            out.write(part)


# segments of at most so many samples, from the first sample on
def parts(count, per_segment, size_of, shown=lambda i: i, sync=lambda i: i % 10 == 0):
    for start in range(0, count, per_segment):
        sizes = [size_of(i) for i in range(start, min(start + per_segment, count))]
        yield segment(start, sizes, shown, sync)


# the movie box behind the samples, whose bytes begin at 8 in the media data box behind the file type box
def classic(sizes):
    make, count = maker(), len(sizes)
    starts = [0]
    for chunk in range(0, count, PER_CHUNK):
        starts.append(starts[-1] + sum(sizes[chunk:chunk + PER_CHUNK]))
    whole, rest = divmod(count, PER_CHUNK)
    chunks = [(1, PER_CHUNK, 1)] * (whole > 0) + [(whole + 1, rest, 1)] * (rest > 0)
    runs = [(1, (reordered(i) - i) * UNITS) for i in range(count)]

    class ClassicTrack(make.Track):
        # with a width and a height, without which ffmpeg copies nothing
        def entry(self):
            entry = super().entry()
            return entry[:32] + struct.pack(">HH", 320, 240) + entry[36:]

        def tables(self):
            return [
                make.full(b"stts", 0, 0, make.words(1, count, UNITS)),
                make.full(b"ctts", 1, 0, make.words(count), b"".join(struct.pack(">Ii", *run) for run in runs)),
                make.full(b"stss", 0, 0, make.words(len(range(0, count, 10)), *range(1, count + 1, 10))),
                make.full(b"stsc", 0, 0, make.words(len(chunks), *(number for entry in chunks for number in entry))),
                make.full(b"stsz", 0, 0, make.words(0, count, *sizes)),
                make.full(b"stco", 0, 0, make.words(len(starts) - 1, *(len(make.FTYP) + 8 + at for at in starts[:-1]))),
            ]

    track = ClassicTrack(1, b"vide", 90000, b"hvc1")
    return make.FTYP + box(b"mdat", b"\x55" * sum(sizes)) + make.moov(track, fragmented=False)


def reordered(i):
    return i - i % 10 + SHOWN[i % 10]


def every(i):
    return True


def store(case, count):
    if case == "twice":
        return 2 * list(parts(count, 100, lambda i: 32, reordered))
    if case == "sound-twice":
        return 2 * list(parts(count, 100, lambda i: 16, sync=every))
    if case == "backwards":
        return reversed(list(parts(count, 10, lambda i: 32, reordered)))
    if case == "gaps-backwards":
        return [segment(2 * i, [16], sync=every) for i in reversed(range(count))]
    if case == "gaps-filled":
        return [segment(2 * i, [16], sync=every) for i in range(count)] + [
            segment(2 * i + 1, [16], sync=every) for i in range(count)]
    if case == "random":
        places = random.Random(1)
        return parts(count, 100, lambda i: 8, lambda i: places.randrange(count), every)
    if case in ("anywhere", "anywhere-twice"):
        return anywhere(count, case)
    sys.exit(f"no case {case}")


# samples of 10 units at any unit of the time that all take: each a random access point; or each tenth, and all twice
def anywhere(count, case):
    places = random.Random(1)
    sync = every if case == "anywhere" else lambda i: i % 10 == 0
    for _ in range(1 if case == "anywhere" else 2):
        for start in range(0, count, 100):
            sizes = [8] * min(100, count - start)
            yield segment(start, sizes, lambda i: i + places.randrange(10 * count) / 10, sync, 10)


# so many tracks, of each of which a movie fragment has so many samples
def tracks(number, count, per_fragment):
    make = maker()
    numbers = range(1, number + 1)
    yield make.FTYP + make.moov(*(make.Track(track, b"vide", 90000, b"avc1") for track in numbers), following=number + 1)
    for at in range(count // number // per_fragment):
        start, samples = at * per_fragment * UNITS, make.sounds(per_fragment)
        yield make.segment(at + 1, *(make.Run(track, start, UNITS, samples, size=16) for track in numbers))


def main():
    command = sys.argv[1]
    if command == "samples":
        count, size = int(sys.argv[2]), int(sys.argv[3])
        write(sys.argv[4], parts(count, 100, lambda i: size // 2 + i * 37 % size, reordered))
    elif command == "bytes":
        count, size = int(sys.argv[2]), int(sys.argv[3])
        write(sys.argv[4], parts(count, 10, lambda i: size))
    elif command in ("tracks", "turns"):
        with open(sys.argv[4], "wb") as out:
            for part in tracks(int(sys.argv[2]), int(sys.argv[3]), PER_CHUNK if command == "tracks" else 1):
                out.write(part)
    elif command == "classic":
        count, size = int(sys.argv[2]), int(sys.argv[3])
        with open(sys.argv[4], "wb") as out:
            out.write(classic([size // 2 + i * 37 % size for i in range(count)]))
    else:
        write(sys.argv[4], store(sys.argv[2], int(sys.argv[3])))


if __name__ == "__main__":
    main()

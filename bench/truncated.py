#!/usr/bin/env python3
"""Cuts files at each byte, and compares what is printed of each front part; not part of the gate.

    bench/truncated.py [PROGRAM] [FILE ..]
    bench/truncated.py --store

PROGRAM is crates/mseplay/out/mseplay, as `rt run` leaves it in crates/mseplay. Of each front part of each file `ranges` and
`pieces 1` have to print the block that the reader below finds, and end with its status. The reader is written from the
standards (ISO/IEC 14496-12, ISO/IEC 13818-7, the byte stream formats of Media Source Extensions) and shares no code with
the program. It knows just what the files below need: samples that come in order and replace none. ADTS frames are appended
by a script.

--store runs no program and writes the blocks of some of these files as tables of the cases.
"""
import os
import re
import struct
import subprocess
import sys
import tempfile
import time
from concurrent.futures import ThreadPoolExecutor

HERE = os.path.dirname(os.path.abspath(__file__))
EXAMPLES = os.path.join(HERE, "..", "crates", "case_runs", "data")
TABLES = os.path.join(EXAMPLES, "fronts")
SMALL = ["media/two-tracks.mp4", "media/tagged.aac", "gap.mp4", "groups.mp4", "late.mp4"]
FILES = [*SMALL, "plain.mp4", "classic.mp4", "cut.mp4", "classic.m4a", "audio.mp4"]
SECOND = 141120000000
MEDIA = 9
RATES = [96000, 88200, 64000, 48000, 44100, 32000, 24000, 22050, 16000, 12000, 11025, 8000, 7350]


def main():
    words = sys.argv[1:]
    if words == ["--store"]:
        return store()
    program = os.path.abspath(words[0] if words else os.path.join(HERE, "../crates/mseplay/out/mseplay"))
    bad = 0
    for file in words[1:] or FILES:
        whole = content(file)
        begin = time.monotonic()
        with ThreadPoolExecutor(os.cpu_count()) as pool:
            wrong = [n for n, ok in enumerate(pool.map(lambda n: check(program, file, whole[:n]), range(len(whole) + 1))) if not ok]
        print(f"{os.path.basename(file)}: {len(whole) + 1} front parts, {time.monotonic() - begin:.0f} s, wrong at {wrong or 'none'}",
              flush=True)
        bad += len(wrong)
    sys.exit(1 if bad else 0)


def content(file):
    """The bytes of a file of crates/case_runs/data, or of the current folder."""
    example = os.path.join(EXAMPLES, file)
    with open(example if os.path.exists(example) else file, "rb") as opened:
        return opened.read()


def wanted(file, front):
    """The block and the status of a front part."""
    return (adts_block(front), 0) if file.endswith(".aac") else segments_block(front)


def check(program, file, front):
    """Whether the program prints of a front part what is wanted, in one append and byte by byte."""
    with tempfile.TemporaryDirectory() as room:
        with open(f"{room}/front", "wb") as written:
            written.write(front)
        block, status = wanted(file, front)
        if file.endswith(".aac"):
            runs = [["play", script(room, [len(front)])], ["play", script(room, [1] * len(front))]]
        else:
            runs = [["ranges", "front"], ["pieces", "1", "front"]]
        for words in runs:
            done = subprocess.run([program, *words], cwd=room, stdin=subprocess.DEVNULL, stdout=subprocess.PIPE)
            text = done.stdout.decode()
            if words[0] == "play":
                text = text[text.rindex("\nduration ") + 1:]
            if (text, done.returncode) != (block, status):
                return False
    return True


def script(room, lengths):
    """The name of a script that appends the file in parts of these lengths."""
    name, at, steps = f"{len(lengths)}.toml", 0, ["attach", "add audio/aac"]
    for length in lengths:
        steps += [f"append 0 0 {at} {length}", "drain"]
        at += length
    with open(f"{room}/{name}", "w") as written:
        lines = ", ".join(f'"{step}"' for step in steps)
        written.write(f'blobs = ["file front"]\nsteps = [{lines}]\n')
    return name


# The tables of the cases

def rows(file):
    """Front parts with the same block but for the count of held bytes, which is 0 or counts from some byte on: the shortest,
    the longest, that byte, and the block before and behind the count."""
    whole, found = content(file), []
    for length in range(len(whole) + 1):
        block, status = wanted(file, whole[:length])
        assert status == 0
        head, held, tail = re.fullmatch(r"(.* held )(\d+)( .*)", block, re.S).groups()
        base = None if held == "0" else length - int(held)
        first, _, before, *texts = found[-1] if found else (None, None, None, None)
        if texts == [head, tail] and (base == before or before is None and base == first == length - 1):
            found[-1] = (first, length, base, head, tail)
        else:
            found.append((length, length, base, head, tail))
    return found


def store():
    for file in [*SMALL, "plain.mp4"]:
        with open(os.path.join(TABLES, os.path.basename(file).partition(".")[0] + ".txt"), "w") as out:
            for first, last, base, head, tail in rows(file):
                out.write(f"bytes {first} {last} {base or 0}\n{head}{'0' if base is None else '*'}{tail}")


# What is buffered

class Track:
    def __init__(self, number, kind, codec, scale, shift=0):
        self.number, self.kind, self.codec, self.scale, self.shift = number, kind, codec, scale, shift
        self.frames, self.used = [], 0

    def add(self, start, end, size):
        self.frames.append((start, end))
        self.used += size

    def ranges(self):
        joined = []
        for start, end in sorted(self.frames):
            if joined and start <= joined[-1][1]:
                joined[-1][1] = max(end, joined[-1][1])
            else:
                joined.append([start, end])
        return joined


def ticks(media_time, scale):
    return media_time * SECOND // scale


def meet(these, those):
    both = [[max(a, c), min(b, d)] for a, b in these for c, d in those]
    return [span for span in both if span[0] < span[1]]


def printed(ranges):
    return " ".join(f"[{start},{end})" for start, end in ranges) or "none"


def block_of(duration, phase, held, tracks, fault=None):
    """The closing block of one source buffer."""
    buffered = tracks[0].ranges() if tracks else []
    for track in tracks[1:]:
        buffered = meet(buffered, track.ranges())
    lines = [f"duration {duration}",
             f"buffer 0 phase {phase} held {held} used {sum(track.used for track in tracks)} buffered {printed(buffered)}"]
    for track in tracks:
        lines.append(f"track 0 {track.number} {track.kind} {track.codec} frames {len(track.frames)} ranges {printed(track.ranges())}")
    return "\n".join([*lines, *[fault] * (fault is not None)]) + "\n"


# Segments of ISO BMFF

def boxes(data):
    """The boxes of a row: type and payload."""
    at, row = 0, []
    while at < len(data):
        size, kind = struct.unpack_from(">I4s", data, at)
        row.append((kind, data[at + 8:at + size]))
        at += size
    return row


def first(row, kind):
    return next((payload for name, payload in row if name == kind), None)


def inside(payload, *kinds):
    for kind in kinds:
        payload = payload and first(boxes(payload), kind)
    return payload


def long(payload, short_at, long_at):
    """A field of 32 bits in version 0 and of 64 in version 1."""
    return struct.unpack_from(">Q", payload, long_at)[0] if payload[0] == 1 else struct.unpack_from(">I", payload, short_at)[0]


def segments_block(data):
    """The block of a file in one append, and the status."""
    at, phase, duration, tracks, defaults = 0, "waiting", "nan", [], {}
    while True:
        if len(data) - at < 8:
            return block_of(duration, phase, len(data) - at, tracks), 0
        size, kind = struct.unpack_from(">I4s", data, at)
        is_whole = at + size <= len(data)
        if kind == b"ftyp":
            phase = "init"
        if not is_whole:
            return block_of(duration, phase, len(data) - at if kind in [b"moov", b"moof"] else 0, tracks), 0
        if kind == b"moov":
            moov = boxes(data[at + 8:at + size])
            if first(moov, b"mvex") is None:
                return block_of("nan", "waiting", 0, [], f"fault 9 Init NoMvex buffer 0 at {at}"), MEDIA
            phase, duration, tracks, defaults = "waiting", *read_moov(moov)
        if kind == b"moof":
            end = at_segment_end(data, at, size, tracks, defaults)
            if end is None:
                return block_of(duration, "media", len(data) - at, tracks), 0
            at, phase = end, "waiting"
        else:
            at += size


def read_moov(moov):
    mvhd, mehd = first(moov, b"mvhd"), inside(first(moov, b"mvex"), b"mehd")
    scale = struct.unpack_from(">I", mvhd, 20 if mvhd[0] == 1 else 12)[0]
    length = (mehd and long(mehd, 4, 4)) or long(mvhd, 16, 24)
    defaults = {}
    for kind, payload in boxes(first(moov, b"mvex")):
        if kind == b"trex":
            number, _, *values = struct.unpack_from(">5I", payload, 4)
            defaults.setdefault(number, values)
    return (ticks(length, scale) if length else "inf"), [read_trak(trak) for kind, trak in moov if kind == b"trak"], defaults


def read_trak(trak):
    tkhd, mdhd = inside(trak, b"tkhd"), inside(trak, b"mdia", b"mdhd")
    number = struct.unpack_from(">I", tkhd, 20 if tkhd[0] == 1 else 12)[0]
    scale = struct.unpack_from(">I", mdhd, 20 if mdhd[0] == 1 else 12)[0]
    kind = {b"vide": "video", b"soun": "audio"}[inside(trak, b"mdia", b"hdlr")[8:12]]
    codec = inside(trak, b"mdia", b"minf", b"stbl", b"stsd")[12:16].decode()
    return Track(number, kind, codec, scale, media_start(inside(trak, b"edts", b"elst")))


def media_start(elst):
    """The media time at which the one edit starts; 0 where there is none."""
    if not elst:
        return 0
    assert struct.unpack_from(">I", elst, 4)[0] == 1
    return struct.unpack_from(">q", elst, 16)[0] if elst[0] == 1 else struct.unpack_from(">i", elst, 12)[0]


def at_segment_end(data, at, size, tracks, defaults):
    """Adds the samples that are there of the segment of a moof, whose media data box is behind it: where it ends, if that is there."""
    start = at + size
    samples = [sample for kind, traf in boxes(data[at + 8:start]) if kind == b"traf"
               for sample in read_traf(boxes(traf), at, tracks, defaults)]
    if len(data) - start < 8:
        return None
    length, kind = struct.unpack_from(">I4s", data, start)
    assert kind == b"mdat" and all(start + 8 <= sample[3] and sample[4] <= start + length for sample in samples)
    for track, begin, end, from_, to in samples:
        if to > len(data):
            return None
        track.add(begin, end, to - from_)
    return start + length if start + length <= len(data) else None


def read_traf(traf, base, tracks, defaults):
    """The samples of a traf: track, start and end in ticks, and where their bytes start and end."""
    tfhd, tfdt = first(traf, b"tfhd"), first(traf, b"tfdt")
    flags, number = struct.unpack_from(">II", tfhd)
    assert flags & 0x1 == 0 and flags & 0x20000
    track, values, at = next(it for it in tracks if it.number == number), list(defaults[number]), 8 + 4 * (flags >> 1 & 1)
    for i, bit in enumerate([0x8, 0x10, 0x20]):
        if flags & bit:
            values[i] = struct.unpack_from(">I", tfhd, at)[0]
            at += 4
    decode, place = long(tfdt, 4, 4), base
    for kind, run in traf:
        if kind == b"trun":
            for begin, end, from_, to in read_run(run, base, place, decode, values):
                yield track, ticks(begin - track.shift, track.scale), ticks(end - track.shift, track.scale), from_, to
                place, decode = to, decode + end - begin


def read_run(run, base, place, decode, values):
    """The samples of a run: start and end in media time, and where their bytes start and end."""
    flags, count = struct.unpack_from(">II", run)
    at = 8
    if flags & 0x1:
        place = base + struct.unpack_from(">i", run, at)[0]
        at += 4
    at += 4 * (flags >> 2 & 1)
    for _ in range(count):
        fields = [values[0], values[1], 0, 0]
        for i, bit in enumerate([0x100, 0x200, 0x400, 0x800]):
            if flags & bit:
                fields[i] = struct.unpack_from(">i" if i == 3 else ">I", run, at)[0]
                at += 4
        duration, size, _, offset = fields
        yield decode + offset, decode + offset + duration, place, place + size
        place, decode = place + size, decode + duration


# ADTS frames

def adts_block(data):
    """The block of frames in one append."""
    at, duration, time_of, tracks = 0, "nan", 0, []
    while True:
        rest = data[at:]
        if rest[:3] in [b"ID3", b"TAG"]:
            size = 128 if rest[:3] == b"TAG" else tag_size(rest) if len(rest) >= 10 else None
            if size is None or len(rest) < size:
                return block_of(duration, "waiting", 0 if size else len(rest), tracks)
            at += size
            continue
        if len(rest) < 7:
            return block_of(duration, "waiting", len(rest), tracks)
        rate, size, count = RATES[rest[2] >> 2 & 15], (rest[3] & 3) << 11 | rest[4] << 3 | rest[5] >> 5, (rest[6] & 3) + 1
        duration, tracks = "inf", tracks or [Track(1, "audio", "mp4a", rate)]
        if len(rest) < size:
            return block_of(duration, "media", len(rest), tracks)
        end = time_of + ticks(1024 * count, rate)
        tracks[0].add(time_of, end, size)
        at, time_of = at + size, end


def tag_size(tag):
    size = 0
    for byte in tag[6:10]:
        size = size << 7 | byte & 127
    return 10 + size + (10 if tag[5] & 16 else 0)


main()

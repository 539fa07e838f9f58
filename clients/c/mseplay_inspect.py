"""`mseplay.inspect`: what one file comes to in a source buffer, as a dictionary.

It has the keys of a line of `mseplay inspect --json` (js/CATALOGUE.md), but for those that need more than the top
boxes of the file: `codecs`, `lost`, `wrong` and `says`. Times are texts, as there.
"""

import bisect
import ctypes
import functools
import io
import itertools
import math
import os
import re
import stat
from typing import NamedTuple

import mseplay

# The greatest quota, so that nothing is evicted, and how much of a file is in memory at once.
QUOTA = 1 << 40
PIECE = 1 << 22
# Behind a file of so many bytes the heap gives its free memory back to the system.
LARGE = 1 << 20


class Box(NamedTuple):
    """A box at the top level: `told` is the size in its header, or None where that is no size."""

    kind: bytes
    start: int
    end: int
    told: int | None
    header: int

    def is_whole(self):
        return self.told is not None and self.told <= self.end - self.start


class Segment(NamedTuple):
    """A part of a file: "init", "media", "frames" or "other"."""

    kind: str
    start: int
    end: int


def top_boxes(file, start, end):
    """The boxes from one place of a file to another."""
    while start < end:
        file.seek(start)
        head = file.read(min(16, end - start))
        if len(head) < 8:
            yield Box(b"", start, end, None, 8)
            return
        told, header = int.from_bytes(head[:4], "big"), 8
        if told == 1:
            told, header = (int.from_bytes(head[8:], "big") if len(head) == 16 else 0), 16
        told = told if told >= header else None
        last = end if told is None else min(end, start + told)
        yield Box(head[4:8], start, last, told, header)
        start = last


def segments(file, size):
    """The segments of a file: an initialization segment up to its moov, a media segment up to the last mdat."""
    start, kind, last = 0, None, b""
    for box in top_boxes(file, 0, size):
        if kind == "media" and box.kind != b"mdat" and last == b"mdat":
            yield Segment(kind, start, box.start)
            start, kind = box.start, None
        last = box.kind
        if box.kind == b"moof":
            kind = "media"
        if box.kind == b"moov" and kind is None:
            yield Segment("init", start, box.end)
            start = box.end
    if start < size:
        yield Segment(kind or "other", start, size)


def is_adts(file):
    """Whether a file begins with a frame of ADTS or an ID3v2 tag."""
    file.seek(0)
    head = file.read(16)
    return len(head) >= 7 and (head[:3] == b"ID3" or (head[0] == 0xFF and head[1] & 0xF6 == 0xF0))


def is_classic(file, size):
    """Whether a file has a whole moov before any moof, and no mvex in it."""
    for box in top_boxes(file, 0, size):
        if box.kind == b"moof":
            return False
        if box.kind == b"moov":
            inner = top_boxes(file, box.start + box.header, box.end)
            return box.is_whole() and all(one.kind != b"mvex" for one in inner)
    return False


def difference(ranges, others):
    """What one list of ranges has and the other has not."""
    left, at = [], 0
    for start, end in ranges:
        while at < len(others) and others[at][1] <= start:
            at += 1
        for other_start, other_end in itertools.islice(others, at, None):
            if other_start >= end:
                break
            if other_start > start:
                left.append((start, other_start))
            start = max(start, other_end)
        if start < end:
            left.append((start, end))
    return left


def gaps_of(now, before):
    """The gaps that a segment left in a track: before what it added, and inside of that."""
    added = difference(now, before)
    gaps = [(end, start) for (_, end), (start, _) in zip(added, added[1:])]
    if added and before:
        ends = [end for _, end in before]
        at = bisect.bisect_right(ends, added[0][0])
        if at > 0 and ends[at - 1] < added[0][0]:
            gaps.insert(0, (ends[at - 1], added[0][0]))
    return gaps


def is_filled(gap, ranges):
    return any(start <= gap[0] and gap[1] <= end for start, end in ranges)


def text_of(time):
    if isinstance(time, int):
        return str(time)
    return "nan" if math.isnan(time) else "inf"


def texts_of(ranges):
    return [[text_of(start), text_of(end)] for start, end in ranges]


FAULT = re.compile(r"fault (\d+) (.+?)(?: buffer \d+)? at (\d+)")


def fault_in(lines):
    """The fault that lines tell, or None."""
    for line in lines:
        found = FAULT.fullmatch(line)
        if found:
            return {"fault": int(found[1]), "name": found[2], "offset": int(found[3])}
    return None


class Inspection:
    """A file that is appended to a session, one segment at a time."""

    def __init__(self, file, size, library):
        self.file, self.size = file, size
        self.session = mseplay.Session(quota=QUOTA, library=library)
        self.gaps, self.fault, self.segments, self.tracks = [], None, 0, []

    def append_all(self):
        adts = is_adts(self.file)
        for step in ("attach", "drain", "add audio/aac" if adts else "add video/mp4", "drain"):
            self.session.step(step)
        whole = [Segment("frames", 0, self.size)] if adts and self.size else []
        for segment in whole or segments(self.file, self.size):
            self.segments += segment.kind == "media"
            if self.fault is None:
                self.append(segment)
        ranges = {track.id: track.ranges for track in self.tracks}
        self.gaps = [gap for gap in self.gaps if not is_filled(gap[3:], ranges.get(gap[2], []))]

    def append(self, segment):
        self.give(segment)
        before = {track.id: track.ranges for track in self.tracks}
        self.tracks = self.session.buffer(0).tracks
        for track in self.tracks:
            number = self.segments if segment.kind == "media" else 0
            for start, end in gaps_of(track.ranges, before.get(track.id, [])):
                self.gaps.append((number, segment.start, track.id, start, end))

    def give(self, segment):
        """Appends the bytes of a segment, up to a fault."""
        for start in range(segment.start, segment.end, PIECE):
            self.file.seek(start)
            data = self.file.read(min(PIECE, segment.end - start))
            number = self.session.give(data)
            if self.session.step(f"append 0 {number}").refused:
                return
            self.session.step("drain")
            self.session.forget(number + 1)
            if self.session.attributes().fault:
                self.fault = fault_in(self.session.block())
                self.fault["segment"] = self.segments if segment.kind == "media" else None
                return

    def found(self):
        """What there is to tell, in the order of a line."""
        return {
            "duration": text_of(self.session.attributes().duration), "segments": self.segments,
            "ranges": texts_of(self.session.buffer(0).buffered),
            "tracks": [{"track": track.id, "kind": track.kind, "codec": track.codec, "frames": track.frames,
                        "ranges": texts_of(track.ranges)} for track in self.tracks],
            "gaps": [{"segment": number, "offset": offset, "track": track, "from": str(start), "to": str(end)}
                     for number, offset, track, start, end in self.gaps],
            "fault": self.fault,
        }


def remuxed(file, library):
    """What `remux` makes of a classic file: its bytes, or None, and what a line tells of it."""
    file.seek(0)
    data = file.read()
    status, written, room = library.call(["remux", "file"], {"file": data}, len(data) + (1 << 20))
    if written > len(room):
        status, written, room = library.call(["remux", "file"], {"file": data}, written)
    if status == 0:
        return room[:written], {"bytes": written}
    text = room[:written].decode("ascii").strip()
    return None, fault_in([text]) or {"error": text}


@functools.cache
def trim():
    """What gives free memory of the heap back to the system, where the C library has it."""
    return getattr(ctypes.CDLL(None), "malloc_trim", lambda _: None)


def inspected(file, size, library):
    inspection = Inspection(file, size, library)
    try:
        with inspection.session:
            inspection.append_all()
            return inspection.found()
    finally:
        if size >= LARGE:
            trim()(0)


def inspect(path, remux=False, library=None):
    """What `mseplay.inspect` gives. `library` is a shared library of sessions."""
    name = os.fsdecode(path)
    if not stat.S_ISREG(os.stat(name).st_mode):
        raise OSError(f"{name} is no file")
    with open(name, "rb") as file:
        size = os.fstat(file.fileno()).st_size
        classic = not is_adts(file) and is_classic(file, size)
        head = {"file": name, "bytes": size, "classic": classic}
        if not (remux and classic):
            return head | inspected(file, size, library)
        data, made = remuxed(file, mseplay.run_library())
        if data is None:
            return head | {"remux": made} | inspected(file, size, library)
        return head | {"remux": made} | inspected(io.BytesIO(data), len(data), library)

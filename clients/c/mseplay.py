"""mseplay in Python: a run of the program in one call, sessions, whose steps are done one at a time, and what a file
comes to.

    import mseplay

    run = mseplay.Library()
    status, printed = run(["play", "script.toml"], {"script.toml": script, "plain.mp4": media})

    with mseplay.Session() as session:
        session.give(media)
        for line in ["attach", "add video/mp4", "append 0 0", "drain"]:
            lines, refused = session.step(line)
        print(session.buffer(0).buffered)

    found = mseplay.inspect("plain.mp4")     # a dictionary; js/CATALOGUE.md has its keys

The files of a run are bytes by name. All of them link libmseplay_c.a, which `rt lib` makes in crates/mseplay_c, with
the system's C compiler. Where it is not there they take that of bench/unproved.py, libmseplay_c-unproved.a at the top;
another archive is named by the environment variable MSEPLAY_C.
"""

import contextlib
import ctypes
import functools
import math
import os
import shutil
import subprocess
import tempfile
import threading
from pathlib import Path
from typing import NamedTuple

HERE = Path(__file__).resolve().parent
TOP = HERE.parent.parent
# Where the static library is looked for: proved, else unproved.
BUILT = [TOP / "crates" / "mseplay_c" / "out" / "libmseplay_c.a", TOP / "libmseplay_c-unproved.a"]
FIRST_ROOM = 1 << 14


class ByteSlice(ctypes.Structure):
    _fields_ = [("data", ctypes.c_char_p), ("length", ctypes.c_size_t)]


class File(ctypes.Structure):
    _fields_ = [("name", ByteSlice), ("bytes", ByteSlice)]


def archive():
    """The path of the static library."""
    path = Path(os.environ.get("MSEPLAY_C") or next(filter(Path.is_file, BUILT), BUILT[0]))
    if not path.is_file():
        raise FileNotFoundError(f"no library at {path}: make it by `rt lib` in crates/mseplay_c, "
                                "or by bench/unproved.py --library, or give its path in MSEPLAY_C")
    return path.resolve()


def compiler():
    """The path of the system's C compiler."""
    for name in ("cc", "gcc", "clang"):
        path = shutil.which(name)
        if path:
            return path
    raise FileNotFoundError("no C compiler here: it is in the Debian package gcc")


def shared_library(folder, heap=HERE / "heap.c"):
    """A shared library of the archive and a heap, made in a folder and loaded."""
    path = Path(folder) / "libmseplay.so"
    subprocess.run([compiler(), "-shared", "-fPIC", "-O2", "-o", path, heap,
                    "-Wl,--whole-archive", archive(), "-Wl,--no-whole-archive"], check=True)
    return ctypes.CDLL(str(path))


def slice_of(data):
    return ByteSlice(data, len(data))


def array_of(kind, items):
    """An array for C, with one place at least, since no pointer may be null."""
    return (kind * max(len(items), 1))(*items)


class Library:
    """The library, linked and loaded. It is called with words, and with files as bytes by name."""

    def __init__(self):
        with tempfile.TemporaryDirectory() as folder:
            self.run = shared_library(folder).mseplay_run
        size = ctypes.c_size_t
        self.run.restype = ctypes.c_uint8
        self.run.argtypes = [ctypes.POINTER(ByteSlice), size, ctypes.POINTER(File), size,
                             ctypes.c_char_p, size, ctypes.POINTER(size)]

    def call(self, words, files, size):
        """The status, how many bytes are printed, and a room of so many bytes that begins with them."""
        word_list = [slice_of(os.fsencode(word)) for word in words]
        file_list = [File(slice_of(os.fsencode(name)), slice_of(bytes(data)))
                     for name, data in files.items()]
        room = ctypes.create_string_buffer(max(size, 1))
        written = ctypes.c_size_t()
        status = self.run(array_of(ByteSlice, word_list), len(word_list),
                          array_of(File, file_list), len(file_list),
                          room, size, ctypes.byref(written))
        return status, written.value, room.raw[:size]

    def __call__(self, words, files=None):
        """The status, and what is printed."""
        status, written, room = self.call(words, files or {}, FIRST_ROOM)
        if written > FIRST_ROOM:
            status, written, room = self.call(words, files or {}, written)
        return status, room[:written]


@functools.cache
def run_library():
    """The library of `inspect` for whole runs, linked and loaded once."""
    return Library()


def inspect(path, remux=False, library=None):
    """What a file comes to in a source buffer, as a dictionary: js/CATALOGUE.md has its keys. A classic file is made
    into fragments before it where `remux`. All memory is given back; a file that cannot be read is an OSError."""
    import mseplay_inspect

    return mseplay_inspect.inspect(path, remux, library)


# Sessions. Each structure is that of the same name in mseplay.h.

DONE, NOT_THERE, NO_MEMORY, NO_BYTES = 0, 2, 5, 8

REFUSALS = [None, "InvalidStateError", "NotSupportedError", "QuotaExceededError", "TypeError", "NotFoundError",
            "NoSuchBuffer", "NoSuchBytes"]
READY_STATES = ["closed", "open", "ended"]
MODES = ["segments", "sequence"]
PHASES = ["waiting", "init", "media"]
KINDS = ["video", "audio"]
NEXT_STEPS = [None, "fire", "work {}", "element"]

# What a script has where it leaves the key out.
QUOTA = 1 << 27


class Ticks(ctypes.Structure):
    _fields_ = [("low", ctypes.c_uint64), ("high", ctypes.c_int64)]

    def value(self):
        return (self.high << 64) + self.low


class Time(ctypes.Structure):
    _fields_ = [("kind", ctypes.c_uint32), ("ticks", Ticks)]

    def value(self):
        return [math.nan, self.ticks.value(), math.inf][self.kind]


class Range(ctypes.Structure):
    _fields_ = [("start", Ticks), ("end", Ticks)]

    def value(self):
        return self.start.value(), self.end.value()


class FaultLook(ctypes.Structure):
    _fields_ = [("number", ctypes.c_uint8), ("inner", ctypes.c_uint8), ("missing", ctypes.c_uint8 * 4),
                ("buffer", ctypes.c_uint32), ("offset", ctypes.c_uint64)]

    def value(self):
        if self.number == 0:
            return None
        missing = bytes(self.missing).decode("latin-1") if any(self.missing) else None
        return Fault(self.number, self.inner, missing, self.buffer, self.offset)


class Look(ctypes.Structure):
    _fields_ = [*[(name, ctypes.c_uint8) for name in
                  ("source", "level", "paused", "seeking", "ended", "error", "is_seekable")],
                ("duration", Time), ("position", Ticks), ("start_position", Ticks), ("seekable", Range),
                ("ranges", ctypes.c_size_t), ("made", ctypes.c_uint32), ("fault", FaultLook)]


class BufferLook(ctypes.Structure):
    _fields_ = [*[(name, ctypes.c_uint8) for name in ("updating", "active", "mode", "phase")],
                ("timestamp_offset", Ticks), ("append_window_start", Ticks), ("append_window_end", Time),
                ("held", ctypes.c_uint64), ("used", ctypes.c_uint64), ("ranges", ctypes.c_size_t),
                ("tracks", ctypes.c_size_t)]


class TrackLook(ctypes.Structure):
    _fields_ = [("id", ctypes.c_uint32), ("kind", ctypes.c_uint8), ("codec", ctypes.c_uint8 * 4),
                ("frames", ctypes.c_uint64), ("ranges", ctypes.c_size_t)]


class Step(NamedTuple):
    """What a step printed, and the name of the error by which its call was refused, or None."""

    lines: list
    refused: str | None


class Fault(NamedTuple):
    """The first fault of all buffers: its numbers, and of a missing box the type."""

    number: int
    inner: int
    missing: str | None
    buffer: int
    offset: int


class Attributes(NamedTuple):
    """What a page reads of the source and of the element, and how many source buffers were ever made."""

    source: str
    level: int
    paused: bool
    seeking: bool
    ended: bool
    error: int
    duration: int | float
    position: int
    start_position: int
    buffered: list
    seekable: tuple | None
    made: int
    fault: Fault | None


class Buffer(NamedTuple):
    """What a page reads of a source buffer, and what it holds."""

    updating: bool
    active: bool
    mode: str
    phase: str
    timestamp_offset: int
    append_window_start: int
    append_window_end: int | float
    held: int
    used: int
    buffered: list
    tracks: list


class Track(NamedTuple):
    """What a track buffer holds."""

    id: int
    kind: str
    codec: str
    frames: int
    ranges: list


class NoSuchStep(ValueError):
    """The line is no step. Nothing changed."""


class NoSuchBytes(LookupError):
    """The step names a blob that was not given, or is forgotten. Nothing changed."""


class NoSuchBuffer(LookupError):
    """The source buffer is not in the list of source buffers."""


class OutOfRange(ValueError):
    """A number that a session does not take. Nothing changed."""


class SessionClosed(ValueError):
    """The session was closed."""


class OutOfMemory(MemoryError):
    """There was no memory. Of a step or a block, `lines` is a front of what it prints; behind a step the session is
    of no use any more."""

    def __init__(self, lines=()):
        super().__init__("there was no memory")
        self.lines = list(lines)


def declared(library):
    """The library, with the types of its calls on sessions."""
    size, byte, long, text = ctypes.c_size_t, ctypes.c_uint8, ctypes.c_uint64, ctypes.c_char_p
    session, to = ctypes.POINTER(ctypes.c_void_p), ctypes.POINTER
    types = {
        "open": [long, long, session],
        "give": [session, text, size],
        "forget": [session, size],
        "step": [session, text, size, text, size, to(size), to(byte)],
        "printed": [session, text, size],
        "next": [session, to(ctypes.c_uint32)],
        "look": [session, to(Look), to(Range), size],
        "look_at": [session, ctypes.c_uint32, to(BufferLook), to(TrackLook), size, to(Range), size],
        "block": [session, text, size, to(size)],
        "close": [session],
    }
    for name, arguments in types.items():
        function = getattr(library, f"mseplay_{name}")
        function.argtypes = arguments
        function.restype = None if name in ("printed", "close") else byte
    return library


@functools.cache
def sessions_library():
    """The library of all sessions, linked and loaded once."""
    with tempfile.TemporaryDirectory() as folder:
        return declared(shared_library(folder))


def unsigned(number, bits):
    """The number, where so many bits hold it."""
    if not 0 <= number < 1 << bits:
        raise OutOfRange(number)
    return number


def check(status, lines=()):
    if status == NO_MEMORY:
        raise OutOfMemory(lines)


def range_values(ranges, first, count):
    return [each.value() for each in ranges[first:first + count]]


def track_values(tracks, ranges, first):
    """The tracks, whose ranges stand one behind the other from a place on."""
    values = []
    for track in tracks:
        values.append(Track(track.id, KINDS[track.kind], bytes(track.codec).decode("latin-1"), track.frames,
                            range_values(ranges, first, track.ranges)))
        first += track.ranges
    return values


class Session:
    """A source with its element, which does a step when it is told to. `quota` and `gap` are keys of a script.

    Times are ticks as int, or the float nan or inf. Threads may share a session: it makes one call at a time."""

    def __init__(self, quota=QUOTA, gap=0, library=None):
        self._handle = ctypes.c_void_p()
        self._lock = threading.RLock()
        self._library = library or sessions_library()
        self._room = ctypes.create_string_buffer(FIRST_ROOM)
        status = self._library.mseplay_open(unsigned(quota, 64), unsigned(gap, 64), ctypes.byref(self._handle))
        if status == NOT_THERE:
            raise OutOfRange(f"quota {quota}, gap {gap}")
        check(status)
        self._given = 0

    def __enter__(self):
        return self

    def __exit__(self, *_):
        self.close()

    def __del__(self):
        self.close()

    def close(self):
        """Gives back all memory of the session. A second call does nothing."""
        with self._lock:
            if self._handle:
                self._library.mseplay_close(ctypes.byref(self._handle))

    @contextlib.contextmanager
    def _opened(self):
        """The session for C, while no other thread has it."""
        with self._lock:
            if not self._handle:
                raise SessionClosed("the session is closed")
            yield ctypes.byref(self._handle)

    def give(self, data):
        """Hands over the bytes of the next blob, and returns its number."""
        data = bytes(data)
        with self._opened() as session:
            check(self._library.mseplay_give(session, data, len(data)))
            self._given += 1
            return self._given - 1

    def forget(self, before):
        """Forgets the blobs with numbers below `before`."""
        with self._opened() as session:
            check(self._library.mseplay_forget(session, unsigned(before, 64)))

    def step(self, line):
        """Does the step of a line, and returns its Step."""
        text = line.encode("utf-8", "surrogatepass")
        written, refused = ctypes.c_size_t(), ctypes.c_uint8()
        with self._opened() as session:
            status = self._library.mseplay_step(session, text, len(text), self._room, len(self._room),
                                                ctypes.byref(written), ctypes.byref(refused))
            lines = self._lines(session, written.value)
        if status == NOT_THERE:
            raise NoSuchStep(line)
        if status == NO_BYTES:
            raise NoSuchBytes(line)
        check(status, lines)
        return Step(lines, REFUSALS[refused.value])

    def next(self):
        """The line of the step that a drain does next, or None where nothing is left to do."""
        buffer = ctypes.c_uint32()
        with self._opened() as session:
            number = self._library.mseplay_next(session, ctypes.byref(buffer))
        check(number)
        line = NEXT_STEPS[number]
        return line and line.format(buffer.value)

    def attributes(self):
        """What a page reads of the source and of the element, as Attributes."""
        look, room = Look(), 0
        with self._opened() as session:
            while True:
                ranges = (Range * max(room, 1))()
                check(self._library.mseplay_look(session, ctypes.byref(look), ranges, room))
                if look.ranges <= room:
                    break
                room = look.ranges
        return Attributes(
            READY_STATES[look.source], look.level, bool(look.paused), bool(look.seeking), bool(look.ended), look.error,
            look.duration.value(), look.position.value(), look.start_position.value(),
            range_values(ranges, 0, look.ranges), look.seekable.value() if look.is_seekable else None, look.made,
            look.fault.value())

    def buffer(self, number):
        """What a page reads of a source buffer, and what it holds, as a Buffer."""
        if not 0 <= number < 1 << 32:
            raise NoSuchBuffer(number)
        look, track_room, room = BufferLook(), 2, 8
        with self._opened() as session:
            while True:
                tracks, ranges = (TrackLook * max(track_room, 1))(), (Range * max(room, 1))()
                status = self._library.mseplay_look_at(session, number, ctypes.byref(look), tracks, track_room,
                                                       ranges, room)
                if status == NOT_THERE:
                    raise NoSuchBuffer(number)
                check(status)
                count = look.ranges + sum(track.ranges for track in tracks[:look.tracks])
                if look.tracks <= track_room and count <= room:
                    break
                track_room, room = max(track_room, look.tracks), max(room, count)
        return Buffer(
            bool(look.updating), bool(look.active), MODES[look.mode], PHASES[look.phase],
            look.timestamp_offset.value(), look.append_window_start.value(), look.append_window_end.value(), look.held,
            look.used, range_values(ranges, 0, look.ranges),
            track_values(tracks[:look.tracks], ranges, look.ranges))

    def block(self):
        """The lines that close a script of the steps so far. The session goes on."""
        written = ctypes.c_size_t()
        with self._opened() as session:
            status = self._library.mseplay_block(session, self._room, len(self._room), ctypes.byref(written))
            lines = self._lines(session, written.value)
        check(status, lines)
        return lines

    def _lines(self, session, length):
        """What the last call printed, whose front is in the room; of so many bytes."""
        if length > len(self._room):
            self._room = ctypes.create_string_buffer(length)
            self._library.mseplay_printed(session, self._room, length)
        return ctypes.string_at(self._room, length).decode("ascii").splitlines()

#!/usr/bin/env python3
"""Measures `inspect` of many files; not part of the gate.

    bench/inspect.py N FOLDER [PROGRAM]

Makes N files of 50 kB to 20 MB in FOLDER, those that are not there yet, 3.3 MB on average: 2,000 have 6.7 GB. Prints a
table of files and bytes a second, of the time of the processor and of the most memory, for

- reading the files alone, in one process of Python;
- `mseplay inspect --json` of js/ with 1, 2 and 4 jobs;
- `mseplay.inspect` of clients/c in one process of Python;
- a loop of the shell that starts PROGRAM, the native one, as `ranges` for each file;
- such a loop of `ffprobe -show_packets`, where it is installed.

Each is run once behind a reading of all files, so that they are in the page cache as far as it has room. The media are
pictures and sound by ffmpeg, of which one fragment is written again and again at later decode times. Of a hundred files
five have a gap, three are cut off and two have a fault.
"""
import os
import random
import shutil
import struct
import subprocess
import sys
import tempfile
import time

TOP = os.path.normpath(os.path.join(os.path.dirname(os.path.abspath(__file__)), ".."))
LEAST, MOST = 50_000, 20_000_000
# Of 25 pictures and 48,000 / 1,024 frames of sound a second, 0.96 s are the least time that both fill evenly, but 0.32.
PERIOD = 0.96
SOURCE = ["-f", "lavfi", "-i", "testsrc2=size=640x360:rate=25", "-f", "lavfi", "-i", "sine=sample_rate=48000"]
PICTURES = ["-c:v", "libx264", "-g", "24", "-sc_threshold", "0", "-bf", "2", "-pix_fmt", "yuv420p"]
CODECS = ["-t", "4.8", *PICTURES, "-c:a", "aac"]
FORM = ["-movflags", "frag_keyframe+delay_moov+default_base_moof", "-f", "mp4"]
READING = """
import sys
for path in sys.stdin.read().split("\\n"):
    with open(path, "rb", buffering=0) as file:
        while file.read(1 << 20): pass
"""
LIBRARY = """
import json, sys
sys.path.insert(0, sys.argv[1])
import mseplay
for path in sys.stdin.read().split("\\n"): print(json.dumps(mseplay.inspect(path)))
"""


def boxes(data, start, end):
    while start < end:
        size = struct.unpack_from(">I", data, start)[0]
        yield data[start + 4:start + 8], start, start + size
        start += size


def piece(bitrate):
    """The initialization segment, the first fragment, and the one behind it, which is repeated."""
    with tempfile.NamedTemporaryFile(suffix=".mp4") as out:
        words = ["ffmpeg", "-y", "-loglevel", "error", *SOURCE, *CODECS, "-b:v", bitrate, *FORM, out.name]
        subprocess.run(words, check=True)
        data = out.read()
    found = list(boxes(data, 0, len(data)))
    first, second, third = [start for kind, start, _ in found if kind == b"moof"][:3]
    return data[:first], data[first:second], data[second:third]


def scales(init):
    """The units of a second of each track."""
    found, at = {}, 0
    while (at := init.find(b"tkhd", at)) >= 0:
        number = struct.unpack_from(">I", init, at + 16)[0]
        found[number] = struct.unpack_from(">I", init, init.index(b"mdhd", at) + 16)[0]
        at += 4
    return found


def places(fragment):
    """Of each track fragment its track, and where its decode time stands."""
    at = 0
    while (at := fragment.find(b"tfhd", at)) >= 0:
        number = struct.unpack_from(">I", fragment, at + 8)[0]
        time_at = fragment.index(b"tfdt", at) + 4
        yield number, time_at + 4, ">Q" if fragment[time_at] == 1 else ">I"
        at += 4


def later(fragment, periods, units, table):
    """The fragment at a decode time that is so many periods later."""
    moved = bytearray(fragment)
    for number, at, form in table:
        shift = round(periods * PERIOD * units[number])
        struct.pack_into(form, moved, at, struct.unpack_from(form, moved, at)[0] + shift)
    return bytes(moved)


def spoiled(parts, number, draw):
    """The fragments of a file, as they are or with what is wrong in them."""
    kind = number % 100
    if kind < 5 and len(parts) > 2:
        del parts[len(parts) // 2]
    if 5 <= kind < 8:
        parts[-1] = parts[-1][:draw.randrange(9, len(parts[-1]))]
    if 8 <= kind < 10:
        parts[-1] = struct.pack(">I", 4) + parts[-1][4:]
    return parts


def make(count, folder):
    """Makes the files that are missing; all of them."""
    os.makedirs(folder, exist_ok=True)
    paths = [os.path.join(folder, f"{number:05}.mp4") for number in range(count)]
    missing = [number for number, path in enumerate(paths) if not os.path.exists(path)]
    pieces = [piece(rate) for rate in ("200k", "800k", "3M")] if missing else []
    for number in missing:
        draw = random.Random(number)
        size = LEAST * (MOST / LEAST) ** draw.random()
        init, first, fragment = pieces[0] if size < 500_000 else draw.choice(pieces)
        units, table = scales(init), list(places(fragment))
        wanted = round((size - len(first)) / len(fragment))
        parts = [first, *(later(fragment, periods, units, table) for periods in range(wanted))]
        with open(paths[number] + ".part", "wb") as out:
            out.write(init)
            out.writelines(spoiled(parts, number, draw))
        os.rename(paths[number] + ".part", paths[number])
    return paths


def measured(words, names):
    """The seconds of a command that reads names, those of the processor, and the most KiB of it or of a child."""
    with tempfile.TemporaryFile("w+") as listed:
        listed.write(names)
        listed.seek(0)
        start = time.monotonic()
        pid = os.posix_spawnp(words[0], words, os.environ, file_actions=[
            (os.POSIX_SPAWN_DUP2, listed.fileno(), 0), (os.POSIX_SPAWN_OPEN, 1, os.devnull, os.O_WRONLY, 0),
            (os.POSIX_SPAWN_OPEN, 2, os.devnull, os.O_WRONLY, 0)])
        _, status, used = os.wait4(pid, 0)
    if os.waitstatus_to_exitcode(status) not in (0, 9):
        sys.exit(f"inspect.py: {words[0]} ended with {os.waitstatus_to_exitcode(status)}")
    return time.monotonic() - start, used.ru_utime + used.ru_stime, used.ru_maxrss


def loop(command):
    return ["sh", "-c", f'while read -r path; do {command} "$path"; done; exit 0']


def kinds(program):
    reading = [sys.executable, "-c", READING]
    yield "reading (not counted)", reading
    yield "reading the files alone", reading
    for jobs in 1, 2, 4:
        words = ["node", os.path.join(TOP, "js/bin/mseplay.mjs"), "inspect", "--json", "--quiet"]
        yield f"`inspect --json --jobs {jobs}`", [*words, "--jobs", str(jobs), "--from", "-"]
    yield "`mseplay.inspect` in one process of Python", [sys.executable, "-c", LIBRARY, os.path.join(TOP, "clients/c")]
    yield "a shell loop over `mseplay ranges`", loop(program)
    if shutil.which("ffprobe"):
        yield "a shell loop over `ffprobe -show_packets`", loop("ffprobe -loglevel quiet -show_packets")


def main():
    if len(sys.argv) not in (3, 4) or not sys.argv[1].isdigit():
        sys.exit(__doc__.strip())
    native = [os.path.join(TOP, "crates/mseplay/out/mseplay"), os.path.join(TOP, "mseplay-unproved")]
    program = os.path.abspath(sys.argv[3]) if len(sys.argv) == 4 else next(filter(os.path.exists, native), native[0])
    paths = make(int(sys.argv[1]), os.path.abspath(sys.argv[2]))
    size = sum(map(os.path.getsize, paths))
    print(f"{len(paths):,} files of {size / 1e9:.2f} GB\n\n| what | seconds | files a second | MB a second "
          "| times reading | processor seconds | most memory of a process |\n|---|---|---|---|---|---|---|")
    alone = None
    for name, words in kinds(f"'{program}' ranges"):
        seconds, processor, memory = measured(words, "\n".join(paths))
        if "not counted" in name:
            continue
        alone = alone or seconds
        speed = f"{len(paths) / seconds:.1f} | {size / seconds / 1e6:.0f}"
        took = f"{seconds:.1f} | {speed} | {seconds / alone:.1f} | {processor:.1f}"
        print(f"| {name} | {took} | {memory / 1024:.0f} MB |", flush=True)


if __name__ == "__main__":
    main()

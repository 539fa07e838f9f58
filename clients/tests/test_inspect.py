"""`mseplay.inspect` of the static library, beside `mseplay inspect --json` of js/."""

import ctypes
import functools
import json
import os
import random
import subprocess
import sys
import tempfile
from pathlib import Path

import kit
from c_kit import C, COUNTED_HEAP, archive_and_compiler, mseplay
from media_files import group, init

PROGRAM = kit.REPOSITORY / "js" / "bin" / "mseplay.mjs"
# What the dictionary does not have.
MORE = ("lost", "wrong", "says")


def lines_of(folder, *options):
    """What js/ prints of all files of a folder."""
    node = kit.tool("node", package="nodejs")
    words = [node, PROGRAM, "inspect", "--json", "--quiet", "--jobs", "1", *options, "."]
    done = subprocess.run(words, cwd=folder, stdout=subprocess.PIPE, timeout=300)
    return [json.loads(line) for line in done.stdout.splitlines()]


def check_folder(folder, *options):
    """The dictionary of each file of a folder is the line of it; how many there were."""
    archive_and_compiler()
    lines = lines_of(folder, *options)
    for line in lines:
        for track in line["tracks"]:
            del track["codecs"]
        name = line["file"]
        found = mseplay.inspect(Path(folder) / name, remux="--remux" in options) | {"file": name}
        wanted = {key: value for key, value in line.items() if key not in MORE}
        assert list(found.items()) == list(wanted.items()), (name, found, wanted)
    return len(lines)


def test_dictionary():
    """A file with a gap, one with a fault, and a classic one."""
    archive_and_compiler()
    path = str(kit.EXAMPLES / "gap.mp4")
    ranges = [["0", "18063360000"], ["21073920000", "33868800000"]]
    assert mseplay.inspect(path) == {
        "file": path, "bytes": 1648, "classic": False, "duration": "inf", "segments": 2, "ranges": ranges,
        "tracks": [
            {"track": 1, "kind": "video", "codec": "avc1", "frames": 6, "ranges": [["0", "33868800000"]]},
            {"track": 2, "kind": "audio", "codec": "mp4a", "frames": 11,
             "ranges": [ranges[0], [ranges[1][0], "36126720000"]]},
        ],
        "gaps": [{"segment": 2, "offset": 1328, "track": 2, "from": ranges[0][1], "to": ranges[1][0]}], "fault": None,
    }
    fault = mseplay.inspect(kit.EXAMPLES / "base-offset.mp4")["fault"]
    assert fault == {"fault": 10, "name": "Moof BaseOffset", "offset": 595, "segment": 1}
    classic = mseplay.inspect(kit.EXAMPLES / "classic.mp4")
    assert (classic["classic"], classic["fault"]["name"], "remux" in classic) == (True, "Init NoMvex", False)
    assert mseplay.inspect(kit.EXAMPLES / "classic.mp4", remux=True)["ranges"] == [["0", "14112000000"]]


def test_not_read():
    """What cannot be read is an OSError."""
    archive_and_compiler()
    for path in (kit.EXAMPLES / "lost.mp4", kit.EXAMPLES, "/dev/null"):
        try:
            mseplay.inspect(path)
        except OSError:
            continue
        raise AssertionError(path)


def test_examples_as_lines():
    """All examples, as they are and with `--remux`."""
    return f"{check_folder(kit.EXAMPLES) + check_folder(kit.EXAMPLES, '--remux')} files"


def spoiled(data, draw):
    """A file with some bytes changed, taken out or cut off."""
    at = draw.randrange(len(data))
    kind = draw.randrange(3)
    if kind == 0:
        return data[:at]
    if kind == 1:
        return data[:at] + data[at + draw.randrange(40):]
    changed = bytearray(data)
    for _ in range(draw.randrange(1, 6)):
        changed[draw.randrange(len(data))] = draw.choice([0, 1, 8, 128, 255])
    return bytes(changed)


def test_spoiled_as_lines():
    """Files that were spoiled at random, the same each time."""
    draw = random.Random(70)
    names = ["gap.mp4", "groups.mp4", "stream-copy.mp4", "priming.mp4", "late.mp4", "classic.mp4"]
    files = [(kit.EXAMPLES / name).read_bytes() for name in names]
    with tempfile.TemporaryDirectory() as folder:
        for number in range(300):
            (Path(folder) / f"{number}.mp4").write_bytes(spoiled(draw.choice(files), draw))
        return f"{check_folder(folder) + check_folder(folder, '--remux')} files"


@functools.cache
def counted():
    """The library over heap_counted.c."""
    archive_and_compiler()
    with tempfile.TemporaryDirectory() as folder:
        made = mseplay.declared(mseplay.shared_library(folder, COUNTED_HEAP))
    for name in ("heap_blocks", "heap_bytes"):
        getattr(made, name).restype = ctypes.c_size_t
    made.heap_refuse_from.argtypes = [ctypes.c_size_t]
    return made


def test_memory_is_given_back():
    """Behind each file each block is given back, also where memory ended in the middle."""
    heap = counted()
    for path in sorted(kit.EXAMPLES.glob("*.mp4")):
        mseplay.inspect(path, library=heap)
        assert heap.heap_blocks() == 0, path
    ended = 0
    for count in range(0, 400, 13):
        heap.heap_refuse_from(count)
        try:
            mseplay.inspect(kit.EXAMPLES / "gap.mp4", library=heap)
        except mseplay.OutOfMemory:
            ended += 1
        finally:
            heap.heap_refuse_from((1 << 64) - 1)
        assert heap.heap_blocks() == 0
    assert ended > 5
    return f"{ended} ended out of memory"


RESIDENT = """
import sys
import mseplay
def resident():
    with open("/proc/self/status") as status:
        return next(int(line.split()[1]) for line in status if line.startswith("VmRSS"))
mseplay.inspect(sys.argv[1])
before = resident()
for _ in range(3):
    for path in sys.argv[2:]:
        assert mseplay.inspect(path)["fault"] is None
print(before, resident())
"""


def test_resident_memory_comes_back():
    """Behind files of 30 MB, and of many segments, a process is about as large as behind a small one."""
    archive_and_compiler()
    if not Path("/proc/self/status").exists():
        raise kit.Skip("no /proc here")
    small = init() + b"".join(group(number + 1, 5 * number) for number in range(6_000))
    with tempfile.TemporaryDirectory() as folder:
        paths = [Path(folder) / f"{name}.mp4" for name in ("many", "large")]
        paths[0].write_bytes(small)
        subprocess.run([sys.executable, kit.REPOSITORY / "bench" / "make.py", "bytes", "750", "40000", paths[1]],
                       check=True)
        sizes = " and ".join(f"{path.stat().st_size:,}" for path in paths)
        done = subprocess.run([sys.executable, "-c", RESIDENT, kit.EXAMPLES / "plain.mp4", *paths], check=True,
                              env={**os.environ, "PYTHONPATH": str(C)}, stdout=subprocess.PIPE, timeout=300)
    before, after = map(int, done.stdout.split())
    assert after - before < 12_000, (before, after)
    return f"{before:,} and {after:,} KiB, files of {sizes} bytes"

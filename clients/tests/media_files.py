"""Files of media for the tests of mseplay.html, written from the boxes of examples/make.py."""

import importlib.util
import struct
import subprocess
import zipfile

import kit


def load(path):
    spec = importlib.util.spec_from_file_location(path.stem, path)
    module = importlib.util.module_from_spec(spec)
    spec.loader.exec_module(module)
    return module


make = load(kit.REPOSITORY / "examples/make.py")
TRACK = make.Track(1, b"vide", 12800, b"avc1", [(0, 1024)])
FRAME = 512  # units: a 25th of a second


def init():
    return make.FTYP + make.moov(TRACK)


def group(number, start, synced=True):
    """A segment of five pictures; where it is not synced its first has not the flags of a sync sample."""
    samples = make.group(FRAME)
    if not synced:
        samples = [(make.OTHER, later) for _, later in samples]
    return make.segment(number, make.Run(1, start * FRAME, FRAME, samples))


def third_late():
    """Three segments, of which the third begins a frame late."""
    return init() + group(1, 0) + group(2, 5) + group(3, 11)


def first_unsynced():
    """Three segments; the first group lacks its random access point."""
    return init() + group(1, 0, synced=False) + group(2, 5) + group(3, 10)


def parted():
    """Each group in two segments: the pictures of the second are shown between those of the first."""
    samples = make.group(FRAME)
    parts = [make.segment(2 * at + part + 1, make.Run(1, (5 * at + 2 * part) * FRAME, FRAME, samples[2:] if part else samples[:2]))
             for at in range(3) for part in (0, 1)]
    return init() + b"".join(parts)


def overlapping():
    """The third segment begins two frames before the second ends."""
    return init() + group(1, 0) + group(2, 5) + group(3, 8)


def packager(folder):
    """What a packager writes: an initialization segment and media segments of pictures, and of sound."""
    sound = make.Track(1, b"soun", 48000, b"mp4a")
    (folder / "init-video.mp4").write_bytes(init())
    (folder / "init-audio.mp4").write_bytes(make.FTYP + make.moov(sound))
    for at in range(12):
        (folder / f"seg-video-{at + 1}.m4s").write_bytes(group(at + 1, 5 * at))
        run = make.Run(1, at * 9600, 960, make.sounds(10))
        (folder / f"seg-audio-{at + 1}.m4s").write_bytes(make.segment(at + 1, run))
    (folder / "manifest.mpd").write_text("<?xml version='1.0'?><MPD/>\n")
    return sorted(folder.iterdir())


def adts(count):
    """Frames of ADTS without their sound, 48,000 a second."""
    return bytes.fromhex("fff14c80013ffc2100") * count


def long_samples(folder, count=300_000):
    path = folder / "long.mp4"
    subprocess.run([str(kit.REPOSITORY / "bench/make.py"), "samples", str(count), "60", str(path)], check=True)
    return path


def tfdt_later(data, number, units):
    """A file in which the decode time of its media segment of a number, from 0 on, is later."""
    at = -1
    for _ in range(number + 1):
        at = data.index(b"tfdt", at + 1)
    place = at + 8
    (time,) = struct.unpack_from(">Q", data, place)
    return data[:place] + struct.pack(">Q", time + units) + data[place + 8:]


def recording(folder):
    """A recording as record.js saves one: two segments with a hundredth of a second between them, which the browser joined."""
    path = folder / "recording.zip"
    told = (kit.EXAMPLES / "gap.txt").read_text().splitlines()
    calls = [line for line in told if line.startswith(("call ", "event "))]
    script = (kit.EXAMPLES / "gap.toml").read_text().replace("gap = 1411200000\n", "").replace("file plain.mp4", "file buffer-0.bin")
    with zipfile.ZipFile(path, "w") as archive:
        archive.writestr("recording.toml", script)
        archive.writestr("browser.txt", "\n".join([*calls, "duration inf", "buffer 0 buffered [0,29635200000)"]) + "\n")
        archive.writestr("buffer-0.bin", (kit.EXAMPLES / "plain.mp4").read_bytes())
    return path

#!/usr/bin/env python3
"""Writes the media of this folder: small files whose frames a browser decodes.

    make.py [FOLDER]

FOLDER is this one where it is left out. It needs `ffmpeg` with libx264 and libopus, which another version may write
otherwise by some bytes; so the files are kept beside this one, and nothing runs this but who wants others. The layouts
that no setting of ffmpeg makes are made of its files by hand.
"""
import os
import struct
import subprocess
import sys
import tempfile

RATE = 25
PICTURES = ["-f", "lavfi", "-i", f"testsrc=size=16x16:rate={RATE}"]
SOUND = ["-f", "lavfi", "-i", "sine=frequency=440:sample_rate=48000"]
# a random access point each second; unit 6 is a text of the encoder
H264 = ["-c:v", "libx264", "-g", str(RATE), "-keyint_min", str(RATE), "-sc_threshold", "0", "-pix_fmt", "yuv420p",
        "-bsf:v", "filter_units=remove_types=6"]
IN_ORDER = [*H264, "-profile:v", "baseline"]
FRAGMENTS = "frag_keyframe+empty_moov+default_base_moof+skip_trailer"


def ffmpeg(*words, suffix=".mp4"):
    """The bytes of what ffmpeg writes for these words."""
    with tempfile.TemporaryDirectory() as folder:
        path = os.path.join(folder, "made" + suffix)
        subprocess.run(["ffmpeg", "-v", "error", "-y", *words, "-fflags", "+bitexact", path], check=True)
        with open(path, "rb") as made:
            return made.read()


def pictures(seconds, *words, movflags=FRAGMENTS, order=IN_ORDER):
    return ffmpeg(*PICTURES, "-t", str(seconds), *order, *words, *(["-movflags", movflags] if movflags else []))


def boxes(content, start=0, end=None):
    """The boxes of a file or of the inside of one, each as its type, its first byte and its end."""
    end = len(content) if end is None else end
    while start + 8 <= end:
        size, kind = struct.unpack_from(">I4s", content, start)
        yield kind, start, start + size
        start += size


def find(content, *path, start=0, end=None):
    """Where the first box of a path stands."""
    for kind, first, last in boxes(content, start, end):
        if kind == path[0]:
            return (first, last) if len(path) == 1 else find(content, *path[1:], start=first + 8, end=last)
    raise ValueError(f"no box {path[0]}")


def grown(content, place, more):
    """The 32-bit size at a place, made greater."""
    size = struct.unpack_from(">I", content, place)[0]
    return content[:place] + struct.pack(">I", size + more) + content[place + 4:]


def with_edits(content, *edits):
    """The file with an edit list in its first track: pairs of a duration in the movie's units and a media time."""
    rows = b"".join(struct.pack(">IiI", length, time, 0x10000) for length, time in edits)
    elst = struct.pack(">I4sII", 16 + len(rows), b"elst", 0, len(edits)) + rows
    edts = struct.pack(">I4s", 8 + len(elst), b"edts") + elst
    moov, trak = find(content, b"moov")[0], find(content, b"moov", b"trak")[0]
    behind = find(content, b"moov", b"trak", b"tkhd")[1]
    content = grown(grown(content, moov, len(edts)), trak, len(edts))
    return content[:behind] + edts + content[behind:]


def size_zero(content):
    at = [first for kind, first, _ in boxes(content) if kind == b"mdat"][-1]
    return content[:at] + bytes(4) + content[at + 4:]


def both(seconds, movflags):
    """Pictures and sound, the pictures with such as are shown later than the next."""
    return ffmpeg(*PICTURES, *SOUND, "-t", str(seconds), *H264, "-c:a", "aac", "-b:a", "32k", "-ac", "1",
                  *(["-movflags", movflags] if movflags else []))


def cut(content):
    """What ffmpeg copies of a file from 0.6 s on, without encoding it again."""
    with tempfile.TemporaryDirectory() as folder:
        path = os.path.join(folder, "whole.mp4")
        with open(path, "wb") as whole:
            whole.write(content)
        return ffmpeg("-ss", "0.6", "-i", path, "-c", "copy", "-movflags",
                      "frag_keyframe+delay_moov+default_base_moof+skip_trailer")


def broken_inside(content):
    """The file with a `traf` in its second `moof` whose size leads beyond its end."""
    moof = [first for kind, first, _ in boxes(content) if kind == b"moof"][1]
    traf = find(content, b"traf", start=moof + 8)[0]
    return content[:traf] + b"\xff" * 4 + content[traf + 4:]


def large():
    """Small pictures with filler: about 200,000 bytes a second."""
    return pictures(3, "-b:v", "1600k", "-x264-params",
                    "nal-hrd=cbr:filler=1:vbv-maxrate=1600:vbv-bufsize=1600:bitrate=1600")


def adts():
    return ffmpeg(*SOUND, "-t", "0.2", "-ac", "1", "-c:a", "aac", "-b:a", "32k", suffix=".aac")


APE = b"APETAGEX" + struct.pack("<IIII", 2000, 32, 0, 0xA0000000) + bytes(8)


def files():
    plain = pictures(3)
    yield "plain.mp4", plain
    yield "broken-moof.mp4", broken_inside(plain)
    yield "large.mp4", large()
    yield "late.mp4", pictures(3, order=H264)
    yield "late-sound.mp4", both(1, FRAGMENTS)
    yield "samples-in-moov.mp4", pictures(3, movflags="frag_keyframe+default_base_moof+skip_trailer")
    yield "samples-base.mp4", pictures(3, movflags="frag_keyframe+skip_trailer")
    yield "base-offset.mp4", pictures(1, movflags="frag_keyframe+empty_moov+skip_trailer")
    yield "no-tfdt.mp4", pictures(1).replace(b"tfdt", b"free")
    yield "no-ftyp.mp4", plain[find(plain, b"moov")[0]:]
    yield "size-zero.mp4", size_zero(plain)
    yield "alac.m4a", ffmpeg(*SOUND, "-t", "0.1", "-c:a", "alac", "-movflags", FRAGMENTS)
    yield "encrypted.mp4", pictures(1, "-encryption_scheme", "cenc-aes-ctr", "-encryption_key", "11" * 16,
                                    "-encryption_kid", "22" * 16)
    yield "classic.mp4", pictures(1, movflags="")
    yield "two-edits.mp4", with_edits(plain, (1000, 0), (1000, 12800))
    yield "empty-edit.mp4", with_edits(plain, (500, -1), (0, 0))
    yield "stream-copy.mp4", cut(both(2, ""))
    yield "priming.mp4", ffmpeg(*SOUND, "-t", "1", "-c:a", "libopus", "-b:a", "16k", "-movflags",
                                "delay_moov+frag_keyframe+default_base_moof+skip_trailer")
    yield "two-trafs.mp4", ffmpeg(*PICTURES, *SOUND, "-t", "1", *IN_ORDER, "-c:a", "aac", "-b:a", "32k", "-ac", "1",
                                  "-movflags", "frag_keyframe+empty_moov+omit_tfhd_offset+skip_trailer")
    yield "sound.aac", adts()
    yield "ape.aac", adts() + APE
    yield "note.bin", b"This is no MP4.\n"


def main():
    folder = sys.argv[1] if len(sys.argv) > 1 else os.path.dirname(os.path.abspath(__file__))
    for name, content in files():
        with open(os.path.join(folder, name), "wb") as out:
            out.write(content)


if __name__ == "__main__":
    main()

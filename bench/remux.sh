#!/bin/sh
# Measures `remux` and `feed`; not part of the gate.
#
#     bench/remux.sh [PROGRAM]
#
# PROGRAM is crates/mseplay/out/mseplay, as `rt run` leaves it in crates/mseplay. The files are made in a folder of their
# own, which goes at the end. Each run is the best of three; where there is no ffmpeg, it is left out. Ten times the
# samples are to take some ten times the time, and `remux` at most 2.5 times the memory of its file where samples
# have forty bytes or more.
set -eu
here=$(cd "$(dirname "$0")" && pwd)
program=$(realpath "${1:-$here/../crates/mseplay/out/mseplay}")
work=$(mktemp -d)
trap 'rm -rf "$work"' EXIT
cd "$work"

python3 "$here/make.py" classic 300000 40 small.mp4
python3 "$here/make.py" classic 30000 40 tenth.mp4
python3 "$here/make.py" classic 300000 200 middle.mp4
python3 "$here/make.py" classic 2500 40000 large.mp4

python3 - "$program" <<'END'
import os
import shutil
import subprocess
import sys
import time

program = sys.argv[1]
TIME = "/usr/bin/time"


def fail(words, status):
    sys.exit(f"{words}: status {status}")


# the least of three: seconds of processor time, and seconds by the clock
def times(words, to):
    found = None
    for _ in range(3):
        start = time.monotonic()
        with open(to, "wb") as out:
            child = subprocess.Popen(words, stdout=out)
            _, status, usage = os.wait4(child.pid, 0)
        took = time.monotonic() - start
        if status != 0:
            fail(words, status)
        this = (usage.ru_utime + usage.ru_stime, took)
        found = this if found is None else tuple(map(min, found, this))
    return found


# the most memory, in bytes; none where there is no GNU time
def memory(words):
    if not os.path.exists(TIME):
        return None
    done = subprocess.run([TIME, "-f", "%M", *words], stdout=subprocess.DEVNULL, stderr=subprocess.PIPE, text=True)
    if done.returncode != 0:
        fail(words, done.returncode)
    return 1024 * int(done.stderr.split()[-1])


def show(name, words, size, to=os.devnull):
    used, took = times(words, to)
    line = f"{name:34} {size / 1e6:6.1f} MB {used:7.3f} s {took:7.3f} s by the clock"
    most = memory(words)
    if most is not None:
        line += f" {most / 1e6:7.1f} MB at most, {most / size:.2f} times the file"
    print(line)
    return used


FFMPEG = ["ffmpeg", "-v", "quiet", "-y", "-i"]
TO_FRAGMENTS = ["-c", "copy", "-movflags", "+frag_keyframe", "-f", "mp4", os.devnull]
FILES = [("300,000 samples of 40 bytes", "small.mp4"), ("30,000 samples of 40 bytes", "tenth.mp4"),
         ("300,000 samples of 200 bytes", "middle.mp4"), ("2,500 samples of 40,000 bytes", "large.mp4")]
took = {}
for name, file in FILES:
    size = os.path.getsize(file)
    took[file] = show(f"remux, {name}", [program, "remux", file], size, f"made-{file}")
    if shutil.which("ffmpeg"):
        show(f"ffmpeg, {name}", [*FFMPEG, file, *TO_FRAGMENTS], size)
print(f"remux, ten times the samples: {took['small.mp4'] / took['tenth.mp4']:.1f} times the time")
for name, file in FILES[:2]:
    made = f"made-{file}"
    took[made] = show(f"feed 0, {name}", [program, "feed", "0", made], os.path.getsize(made))
print(f"feed, ten times the samples: {took['made-small.mp4'] / took['made-tenth.mp4']:.1f} times the time")
last = show("feed 9999/1, 300,000 samples", [program, "feed", "9999/1", "made-small.mp4"], os.path.getsize("made-small.mp4"))
only = show("ranges, 300,000 samples", [program, "ranges", "made-small.mp4"], os.path.getsize("made-small.mp4"))
print(f"feed of the last second: {last / only:.2f} times ranges")
END

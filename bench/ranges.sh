#!/bin/sh
# Measures `ranges` and `pieces`; not part of the gate.
#
#     bench/ranges.sh [PROGRAM]
#
# PROGRAM is crates/mseplay/out/mseplay, as `rt run` leaves it in crates/mseplay. The files are made in a folder of their
# own, which goes at the end. Each run is the best of five; where there is no rustc, the yardstick is left out.
set -eu
here=$(cd "$(dirname "$0")" && pwd)
program=$(realpath "${1:-$here/../crates/mseplay/out/mseplay}")
work=$(mktemp -d)
trap 'rm -rf "$work"' EXIT
cd "$work"

python3 "$here/make.py" samples 300000 40 small.mp4
python3 "$here/make.py" samples 30000 40 tenth.mp4
python3 "$here/make.py" samples 300000 200 medium.mp4
python3 "$here/make.py" bytes 2500 40000 large.mp4
for way in tracks turns; do
    python3 "$here/make.py" $way 1 300000 $way-1.mp4
    python3 "$here/make.py" $way 64 300000 $way-64.mp4
done
python3 "$here/make.py" samples 4600 200 1m.mp4
python3 "$here/make.py" samples 9200 200 2m.mp4
if command -v rustc >/dev/null; then
    rustc --edition 2021 -O -o yardstick "$here/yardstick.rs"
else
    echo "no rustc: no yardstick"
fi

python3 - "$program" <<'END'
import os
import subprocess
import sys
import time

program = sys.argv[1]
TIME = "/usr/bin/time"


def fail(words, status):
    sys.exit(f"{words}: status {status}")


# the least of five: seconds of processor time, and seconds by the clock
def times(words):
    found = None
    for _ in range(5):
        start = time.monotonic()
        child = subprocess.Popen(words, stdout=subprocess.DEVNULL)
        _, status, usage = os.wait4(child.pid, 0)
        took = time.monotonic() - start
        if status != 0:
            fail(words, status)
        this = (usage.ru_utime + usage.ru_stime, took)
        found = this if found is None else tuple(map(min, found, this))
    return found


# the most memory, in bytes; none where there is no GNU time
def memory(words):
    if not os.path.exists(TIME):
        return None
    done = subprocess.run([TIME, "-f", "%M", *words], stdout=subprocess.DEVNULL, stderr=subprocess.PIPE, text=True)
    if done.returncode != 0:
        fail(words, done.returncode)
    return 1024 * int(done.stderr.split()[-1])


def show(name, words):
    used, took = times(words)
    size = os.path.getsize(words[-1])
    line = f"{name:38} {size / 1e6:6.1f} MB {used:7.3f} s {took:7.3f} s by the clock"
    most = memory(words)
    if most is not None:
        line += f" {most / 1e6:7.1f} MB at most, {most / size:.2f} times the file"
    print(line)
    return used


FILES = [("300,000 samples of 40 bytes", "small.mp4"), ("300,000 samples of 200 bytes", "medium.mp4"), ("2,500 samples of 40,000 bytes", "large.mp4")]
for name, file in FILES:
    took = show(f"ranges, {name}", [program, "ranges", file])
    if os.path.exists("yardstick"):
        floor = show(f"floor, {name}", ["./yardstick", file])
        print(f"{name}: {took / floor:.2f} times the floor")
many = show("ranges, 300,000 samples", [program, "ranges", "small.mp4"])
tenth = show("ranges, 30,000 samples", [program, "ranges", "tenth.mp4"])
print(f"ten times the samples: {many / tenth:.1f} times the time")
for way, name in ("tracks", "a hundred"), ("turns", "one"):
    one = show(f"ranges, of one track {name}", [program, "ranges", f"{way}-1.mp4"])
    more = show(f"ranges, of 64 tracks {name} each", [program, "ranges", f"{way}-64.mp4"])
    print(f"of 64 tracks {name} each in turn: {more / one:.2f} times those of one track")
one = show("pieces 1, 1 MB", [program, "pieces", "1", "1m.mp4"])
two = show("pieces 1, 2 MB", [program, "pieces", "1", "2m.mp4"])
print(f"pieces 1, twice the bytes: {two / one:.2f} times the time")
END

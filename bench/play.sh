#!/bin/sh
# Measures `play`; not part of the gate.
#
#     bench/play.sh [PROGRAM]
#
# PROGRAM is crates/mseplay/out/mseplay, as `rt run` leaves it in crates/mseplay. The scripts and files are made in a
# folder of their own, which goes at the end. Each run is the best of three. Ten times the work is to take at most 12
# times the time, and each line at most one write.
set -eu
here=$(cd "$(dirname "$0")" && pwd)
program=$(realpath "${1:-$here/../crates/mseplay/out/mseplay}")
work=$(mktemp -d)
trap 'rm -rf "$work"' EXIT
cp "$here/../crates/case_runs/data/plain.mp4" "$work"
cd "$work"

python3 - "$program" <<'END'
import os
import shutil
import subprocess
import sys
import time

program = sys.argv[1]


def write(name, quota, steps):
    lines = ",\n".join(f'  "{step}"' for step in steps)
    with open(name, "w") as out:
        out.write(f'quota = {quota}\nblobs = ["file plain.mp4"]\nsteps = [\n{lines}\n]\n')


OPEN = ["attach", "add video/mp4", "append 0 0 0 595", "drain"]
SEGMENT = "append 0 0 595 156"


# segments of a tenth of a second, one after the other, each drained
def segments(count):
    steps = list(OPEN)
    for i in range(count):
        steps += [f"offset 0 {i}/10", SEGMENT, "drain"]
    return 134217728, steps


# two buffers in turn; at each step a seek, and an append that evicts
def turns(count):
    steps = ["attach", "add video/mp4", "add video/mp4", f"duration {count + 1}/1"]
    steps += ["append 0 0 0 595", "append 1 0 0 595", "drain"]
    for i in range(count):
        steps += [f"seek {i}/1", f"offset {i % 2} {i}/1", f"append {i % 2} 0 595 156", "drain"]
    return 1200, steps


# many steps of one kind over a small file
def states(count):
    return 134217728, [*OPEN, SEGMENT, "drain", *["state"] * (count - 6)]


# the least of three seconds of processor time, and the most memory in KB
def measured(words):
    best, most = None, 0
    for _ in range(3):
        with open(os.devnull, "w") as nowhere:
            child = subprocess.Popen(words, stdout=nowhere)
            _, status, usage = os.wait4(child.pid, 0)
        if status != 0:
            sys.exit(f"{words}: status {status}")
        took = usage.ru_utime + usage.ru_stime
        best = took if best is None else min(best, took)
        most = max(most, usage.ru_maxrss)
    return best, most


def lines_of(words):
    return subprocess.run(words, stdout=subprocess.PIPE, check=True).stdout.count(b"\n")


def writes_of(words):
    if not shutil.which("strace"):
        return None
    done = subprocess.run(["strace", "-f", "-c", "-e", "trace=write,writev", *words], stdout=subprocess.DEVNULL,
                          stderr=subprocess.PIPE, text=True)
    return sum(int(line.split()[3]) for line in done.stderr.splitlines() if line.split()[-1:] in (["write"], ["writev"]))


for title, make, counts in (("segments, each drained", segments, (10, 100, 1000)),
                            ("two buffers, a seek and an eviction at every step", turns, (10, 100, 1000)),
                            ("steps over a small file", states, (1000, 10000, 100000))):
    before = None
    for count in counts:
        write("script.toml", *make(count))
        words = [program, "play", "script.toml"]
        took, most = measured(words)
        times = "" if before is None else f", {took / max(before, 0.001):.1f} times the time of a tenth"
        print(f"{count} {title}: {took:.3f} s, {most // 1024} MB{times}")
        before = took
    lines, writes = lines_of(words), writes_of(words)
    print(f"  {lines} lines" + ("" if writes is None else f", {writes} writes"))
END

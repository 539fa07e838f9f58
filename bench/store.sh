#!/bin/sh
# Measures `ranges` on samples that replace others, come backwards, at random times or between others; not part of the
# gate.
#
#     bench/store.sh [PROGRAM]
#
# PROGRAM is crates/mseplay/out/mseplay, as `rt run` leaves it in crates/mseplay. Each case is run at two sizes, of which
# the second is ten times the first; each run is the best of three. Ten times the time is linear, a hundred quadratic.
set -eu
here=$(cd "$(dirname "$0")" && pwd)
program=$(realpath "${1:-$here/../crates/mseplay/out/mseplay}")
work=$(mktemp -d)
trap 'rm -rf "$work"' EXIT
cd "$work"

python3 - "$program" "$here/make.py" <<'END'
import os
import subprocess
import sys

program, make = sys.argv[1:]
CASES = [("twice", 100000), ("sound-twice", 168750), ("backwards", 100000), ("random", 100000), ("gaps-backwards", 100000), ("gaps-filled", 100000)]


# the least of three, in seconds of processor time
def seconds(file):
    found = []
    for _ in range(3):
        child = subprocess.Popen([program, "ranges", file], stdout=subprocess.DEVNULL)
        _, status, usage = os.wait4(child.pid, 0)
        if status != 0:
            sys.exit(f"{file}: status {status}")
        found.append(usage.ru_utime + usage.ru_stime)
    return min(found)


for case, count in CASES:
    took = []
    for samples in (count // 10, count):
        subprocess.run([sys.executable, make, "store", case, str(samples), "case.mp4"], check=True)
        took.append(seconds("case.mp4"))
    print(f"{case:16} {count:8} samples {took[1]:8.3f} s, {took[1] / took[0]:6.1f} times a tenth of them")
END

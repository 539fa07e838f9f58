#!/bin/sh
# Prints one table of what the commands take; not part of the gate.
#
#     bench/all.sh [-n ROUNDS] [PROGRAM [OTHER ..]]
#
# PROGRAM is crates/mseplay/out/mseplay, as `rt run` leaves it in crates/mseplay. The runs of all programs take turns, a
# round of each work after the other (five rounds where none is told); a time is processor milliseconds, the least of
# all rounds. Behind each program's time stands how often it is the floor's: that of `yardstick.rs` for `ranges` and for
# files that are played (left out where there is no rustc), and of ffmpeg for `remux` (where there is one). At the end
# stands how much longer ten times the frames take.
set -eu
rounds=5
if [ "${1:-}" = "-n" ]; then
    rounds=$2
    shift 2
fi
here=$(cd "$(dirname "$0")" && pwd)
[ $# -gt 0 ] || set -- "$here/../crates/mseplay/out/mseplay"
programs=
for program in "$@"; do
    programs="$programs $(realpath "$program")"
done
work=$(mktemp -d)
trap 'rm -rf "$work"' EXIT
cp "$here/../crates/case_runs/data/plain.mp4" "$work"
cd "$work"

python3 "$here/make.py" samples 300000 40 small.mp4
python3 "$here/make.py" samples 300000 200 medium.mp4
python3 "$here/make.py" bytes 2500 40000 large.mp4
python3 "$here/make.py" classic 30000 40 classic-1.6.mp4
python3 "$here/make.py" classic 300000 40 classic-16.mp4
python3 "$here/make.py" classic 300000 200 classic-64.mp4
python3 "$here/make.py" classic 2370 40000 classic-95.mp4
for count in 10000 100000 1000000; do
    python3 "$here/make.py" store anywhere $count anywhere-$count.mp4
    python3 "$here/make.py" store anywhere-twice $count anywhere-twice-$count.mp4
done
if command -v rustc >/dev/null; then
    rustc --edition 2021 -O -o yardstick "$here/yardstick.rs"
fi

# shellcheck disable=SC2086
python3 - "$rounds" $programs <<'END'
import os
import shutil
import subprocess
import sys

ROUNDS, PROGRAMS = int(sys.argv[1]), sys.argv[2:]
LARGE = os.path.getsize("large.mp4")


def script(name, quota, blob, steps, rules=""):
    lines = ",\n".join(f'  "{step}"' for step in steps)
    with open(name, "w") as out:
        out.write(f'quota = {quota}\ndrain = 1000000\nblobs = ["file {blob}"]\nsteps = [\n{lines}\n]\n{rules}')
    return ["play", name]


OPEN = ["attach", "add video/mp4", "append 0 0 0 595", "drain"]


def in_pieces(buffers):
    steps = ["attach"] + ["add video/mp4"] * buffers
    for at in range(0, LARGE, 65536):
        for k in range(buffers):
            steps += [f"append {k} 0 {at} {min(65536, LARGE - at)}", "drain"]
    return steps


def small_quota():
    size = os.path.getsize("small.mp4")
    steps = ["attach", "add video/mp4", "add video/mp4"]
    for i, at in enumerate(range(0, size, 65536)):
        steps += [f"append {k} 0 {at} {min(65536, size - at)}" for k in range(2)]
        steps += ["drain", f"seek {i * 40}/1"]
    return steps


def ranges(count):
    steps = list(OPEN)
    for i in range(count):
        steps += [f"offset 0 {i}/1", "append 0 0 595 156", "drain"]
    return steps + ["buffered 0"] * 100


# each of 16 listeners answers the event `play`, so many times, with a thousand calls
def rules(times):
    calls = ", ".join(['"state"'] * 1000)
    return "".join(f'[[rules]]\nlistener = {w}\non = "element play"\ntimes = {times}\ncalls = [{calls}]\n' for w in range(16))


WORKS = [
    ("ranges, 300,000 samples of 40 bytes", ["ranges", "small.mp4"], ["./yardstick", "small.mp4"]),
    ("ranges, 300,000 of 200 bytes", ["ranges", "medium.mp4"], ["./yardstick", "medium.mp4"]),
    ("ranges, 2,500 of 40,000 bytes", ["ranges", "large.mp4"], ["./yardstick", "large.mp4"]),
    ("pieces 65536 of the last", ["pieces", "65536", "large.mp4"], ["./yardstick", "large.mp4"]),
    ("play, the last in 64 kB pieces, two buffers", script("pieces.toml", 268435456, "large.mp4", in_pieces(2)), ["./yardstick", "large.mp4"]),
    ("play, a quota of 1 MB, seeks, two buffers", script("quota.toml", 1048576, "small.mp4", small_quota()), ["./yardstick", "small.mp4"]),
    ("100,000 `state` lines", script("states.toml", 1048576, "plain.mp4", OPEN + ["state"] * (100000 - len(OPEN))), None),
    ("16 listeners, 320,000 calls",
     script("listeners.toml", 134217728, "plain.mp4", OPEN + ["play", "drain", "pause", "drain"] * 20, rules(20)), None),
    ("`buffered` of 10,000 ranges, a hundred times", script("buffered.toml", 134217728, "plain.mp4", ranges(10000)), None),
    ("the ranges made and not read", script("not-buffered.toml", 134217728, "plain.mp4", ranges(10000)[:-100]), None),
    ("feed over 300,000 frames", ["feed", "1/50", "small.mp4"], None),
] + [(f"remux, {size} MB", ["remux", f"classic-{size}.mp4"],
      ["ffmpeg", "-v", "quiet", "-y", "-i", f"classic-{size}.mp4", "-c", "copy", "-movflags", "+frag_keyframe", "-f", "mp4", "/dev/null"])
     for size in ("1.6", "16", "64", "95")]
GROWTH = [(f"{name}, {count:,}", ["ranges", f"{case}-{count}.mp4"])
          for case, name in (("anywhere", "frames at random times"), ("anywhere-twice", "frames at random times, twice")) for count in (10000, 100000, 1000000)]


# processor milliseconds and megabytes of a run; none where the program is not there
def run(words):
    if not (os.path.exists(words[0]) or shutil.which(words[0])):
        return None
    with open(os.devnull, "wb") as nowhere:
        child = subprocess.Popen(words, stdout=nowhere)
        _, status, usage = os.wait4(child.pid, 0)
    if status != 0:
        sys.exit(f"{words}: status {status}")
    return 1000 * (usage.ru_utime + usage.ru_stime), usage.ru_maxrss / 1024


def least(runs):
    runs = [it for it in runs if it]
    return tuple(map(min, zip(*runs))) if runs else None


def cells(best, floor):
    text = f"{best[0]:8.0f} ms {best[1]:5.0f} MB"
    return text + (f" {best[0] / floor[0]:5.2f}" if floor else "      ")


found = {}
for title, words, floor in WORKS + [(*it, None) for it in GROWTH]:
    rounds = ROUNDS if "1,000,000" not in title else 1
    ways = [[program, *words] for program in PROGRAMS] + ([floor] if floor else [])
    runs = [[run(way) for way in ways] for _ in range(rounds)]
    best = [least(it) for it in zip(*runs)]
    found[title] = best
    under = best[-1] if floor else None
    print(f"{title:46}", *(cells(it, under) for it in best[:len(PROGRAMS)]), f"floor {under[0]:6.0f} ms {under[1]:4.0f} MB" if under else "", flush=True)
for (small, _), (title, _) in zip(GROWTH, GROWTH[1:]):
    if small.split(",")[0] == title.split(",")[0]:
        print(f"{title}: ten times the frames,", *(f"{big[0] / max(one[0], 1):.1f}" for big, one in zip(found[title], found[small])), "times the time")
END

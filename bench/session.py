#!/usr/bin/env python3
"""Measures sessions of the static library; not part of the gate.

    bench/session.py [ROUNDS]

The library is that of clients/c/mseplay.py: what `rt lib` leaves in crates/mseplay_c, else libmseplay_c-unproved.a, or
the archive that the environment variable MSEPLAY_C names. Needs a C compiler. Prints a table with

- the processor time of a step, beside that of a line of a script that `play` does in one call, whose reading is counted
  in: an append of three frames, `drain` and `buffered 0`, 30,000 times;
- that of 1,000 and of 10,000 appends, each given, appended, drained and forgotten;
- that of a look at the ranges of a buffer, beside the step that asks for them;
- the memory after 1,000, 100,000 and 1,000,000 appends under a quota of 1,000 bytes, while the element plays: of the
  process, and what of it the library has.

The least of ROUNDS, 15 where it is left out, whose kinds take turns.
"""
import os
import subprocess
import sys
import tempfile

TOP = os.path.normpath(os.path.join(os.path.dirname(os.path.abspath(__file__)), ".."))
C = os.path.join(TOP, "clients", "c")
PLAIN = os.path.join(TOP, "crates", "case_runs", "data", "plain.mp4")
# The length of the initialization segment of plain.mp4.
FRONT = 595
LINES = 30_000
STEPS_OF_APPEND = 3
LOOKS = 100_000

sys.path.insert(0, C)

import mseplay  # noqa: E402


def build(folder):
    path = os.path.join(folder, "session")
    sources = [os.path.join(TOP, "bench", "session.c"), os.path.join(C, "read.c"), os.path.join(C, "heap.c")]
    flags = ["-std=gnu11", "-O2", "-I", C, "-o", path]
    subprocess.run([mseplay.compiler(), *flags, *sources, mseplay.archive()], check=True)
    return path


def run(path, mode, count):
    """The seconds, the bytes that were printed, the memory of the process, and what of it the library has."""
    done = subprocess.run([path, mode, str(count), PLAIN, str(FRONT)], stdout=subprocess.PIPE, check=True, text=True)
    seconds, *numbers = done.stdout.split()
    return float(seconds), *map(int, numbers)


def least(path, rounds, *kinds):
    """The least seconds of each kind; the kinds take turns."""
    found = [[run(path, *kind) for kind in kinds] for _ in range(rounds)]
    return [min(seconds for seconds, *_ in column) for column in zip(*found)]


def time_rows(path, rounds):
    play, steps = least(path, rounds, ("play", LINES), ("steps", LINES))
    if run(path, "play", LINES)[1] != run(path, "steps", LINES)[1]:
        sys.exit("session.py: the steps print something else than play")
    count = LINES * STEPS_OF_APPEND
    yield "a line of `play`", f"{play / count * 1e6:.2f} µs", ""
    yield "a step", f"{steps / count * 1e6:.2f} µs", f"{steps / play:.2f} times the line"
    few, many = least(path, rounds, ("appends", 1_000), ("appends", 10_000))
    yield "1,000 appends", f"{few * 1e3:.1f} ms", ""
    yield "10,000 appends", f"{many * 1e3:.1f} ms", f"{many / few:.1f} times 1,000"
    look, ask = least(path, rounds, ("looks", LOOKS), ("asks", LOOKS))
    yield "`buffered 0`", f"{ask / LOOKS * 1e6:.2f} µs", ""
    yield "`mseplay_look_at`", f"{look / LOOKS * 1e6:.2f} µs", f"{look / ask:.2f} times the step"


def memory_rows(path):
    for count in 1_000, 100_000, 1_000_000:
        seconds, _, resident, held = run(path, "memory", count)
        memory = f"{resident >> 10:,} KiB, of which {held:,} bytes are handed out"
        yield f"{count:,} appends under a quota", f"{seconds:.2f} s", memory


def main():
    if len(sys.argv) > 2:
        sys.exit(__doc__.strip())
    rounds = int(sys.argv[1]) if len(sys.argv) == 2 else 15
    print("| what | processor time | |\n|---|---|---|")
    with tempfile.TemporaryDirectory() as folder:
        path = build(folder)
        for rows in time_rows(path, rounds), memory_rows(path):
            for row in rows:
                print("| " + " | ".join(row) + " |", flush=True)


if __name__ == "__main__":
    main()

#!/usr/bin/env python3
"""Measures js/mseplay.wasm in node beside the native program; not part of the gate.

    bench/wasm.py [ROUNDS [PROGRAM]]

PROGRAM is crates/mseplay/out/mseplay where it is left out. Each measure is a process of its own; the measures take turns
for ROUNDS rounds, 9 where it is left out. Prints a table with the least and the median of

- the time from the import of the engine until a first call can be made, by the clock and by the processor;
- the processor time and the memory of `ranges` over 300,000 samples of 40 and of 200 bytes: of the native program, of
  the first call in a process of node, and of a later one; memory is that beside the bytes of the file, of the native
  program's process and of the module's memory;
- the processor time of 1,000 and of 10,000 awaited appends of three frames;
- the processor time of 150 segments that are appended and played with 1,200 advances of the clock.
"""
import json
import os
import statistics
import subprocess
import sys
import tempfile

BENCH = os.path.dirname(os.path.abspath(__file__))
PROGRAM = os.path.join(BENCH, "..", "crates", "mseplay", "out", "mseplay")
COUNT = 300_000
SIZES = 40, 200


def node(*words):
    done = subprocess.run(["node", os.path.join(BENCH, "wasm.mjs"), *words], stdout=subprocess.PIPE, check=True)
    return json.loads(done.stdout)


def native(program, file):
    """Seconds of the processor and bytes of memory of one run of `ranges`."""
    child = subprocess.Popen([program, "ranges", file], stdout=subprocess.DEVNULL)
    _, status, usage = os.wait4(child.pid, 0)
    if status != 0:
        sys.exit(f"wasm.py: {program} ranges {file}: status {status}")
    return {"first": usage.ru_utime + usage.ru_stime, "memory": 1024 * usage.ru_maxrss}


def rounds_of(rounds, measures):
    """What each measure found, round by round; the measures take turns."""
    found = {name: [] for name in measures}
    for _ in range(rounds):
        for name, measure in measures.items():
            found[name].append(measure())
    return found


def both(rows, key, scale=1000):
    """The least and the median of one number."""
    numbers = [scale * row[key] for row in rows]
    return f"{min(numbers):.1f}", f"{statistics.median(numbers):.1f}"


def least(rows, key):
    return min(row[key] for row in rows)


def show(*cells):
    print("| " + " | ".join(cells) + " |", flush=True)


def show_ranges(size, file, program_rows, node_rows):
    name = f"`ranges`, {COUNT:,} samples of {size} bytes"
    show(f"{name}: native", *both(program_rows, "first"), "")
    base = least(program_rows, "first")
    for key, call in ("first", "first call"), ("later", "later calls"):
        show(f"{name}: {call}", *both(node_rows, key), f"{least(node_rows, key) / base:.2f} times the native program")
    length = os.path.getsize(file)
    beside = least(program_rows, "memory") - length, least(node_rows, "memory") - length
    text = f"{beside[0] / 1e6:.1f} and {beside[1] / 1e6:.1f} MB beside the file's {length / 1e6:.1f}"
    show(f"{name}: memory", "", "", f"{text}: {beside[1] / beside[0]:.2f} times")


def main():
    if len(sys.argv) > 3:
        sys.exit(__doc__.strip())
    rounds = int(sys.argv[1]) if len(sys.argv) > 1 else 9
    program = os.path.realpath(sys.argv[2] if len(sys.argv) > 2 else PROGRAM)
    with tempfile.TemporaryDirectory() as folder:
        files = {size: os.path.join(folder, f"{size}.mp4") for size in SIZES}
        measures = {"load": lambda: node("load")}
        for size, file in files.items():
            make = [sys.executable, os.path.join(BENCH, "make.py"), "samples", str(COUNT), str(size), file]
            subprocess.run(make, check=True)
            measures[f"native {size}"] = lambda file=file: native(program, file)
            measures[f"node {size}"] = lambda file=file: node("ranges", file)
        for count in 1000, 10_000:
            measures[f"{count:,} awaited appends"] = lambda count=count: node("appends", str(count))
        measures["150 segments, 1,200 advances"] = lambda: node("plays")
        found = rounds_of(rounds, measures)
        show("what", "least, ms", "median, ms", "")
        show("---", "---:", "---:", "---")
        show("import, until a first call: by the clock", *both(found.pop("load"), "clock"), "")
        for size, file in files.items():
            show_ranges(size, file, found.pop(f"native {size}"), found.pop(f"node {size}"))
        for name, rows in found.items():
            show(name, *both(rows, "processor"), "")


if __name__ == "__main__":
    main()

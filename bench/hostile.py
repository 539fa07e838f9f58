#!/usr/bin/env python3
"""Hostile use of the static library, counted; not part of the gate.

    bench/hostile.py [--first SEED] [--count N] [--processes P] [--plain] [--memory | --wasm] [--log FILE] [--round N]
    bench/hostile.py --log FILE --show

builds hostile.c and does the sessions of N seeds from SEED on (0 and 10,000 where they are left out). A session is a
random row of steps, good ones and others, over bytes of the repository's files that are cut, put together and damaged, of
ADTS and of text, with looks, blocks and questions for the next step in between. Of each session this is checked:

- each answer is one that mseplay.h names, and the one that docs/SCRIPTS.md asks for: whether the line is a step, whether
  its blob is there, which refusals its call has, and which of them come first;
- the printed lines keep to the grammar of docs/SCRIPTS.md, and repeat the call with its times in ticks;
- looks say what the block says, and nothing is left to do behind a drain;
- no step takes longer than its bytes, and the samples that they announce, allow;
- all memory is given back at the end;
- the script of the steps that were done, played in one call, prints the same bytes and the same block;
- of some sessions also: the script with rules of up to sixteen listeners, the script damaged, and `ranges`, `pieces`,
  `feed` and `remux` of its bytes;
- no sanitizer of clang speaks, and no signal comes.

What is not so is printed with its seed, and with the steps, the script and the printed lines of that session.

--plain builds without sanitizers, which is some ten times as fast. --memory refuses each allocation of each session, and of
its script in one call, in turn, alone and with all that come after it: what is printed is a front, the session says so from
then on, and all memory is given back. --wasm does each session and each script again in node, by js/mseplay.wasm: they have
to bring the same bytes.

--processes is how many run at a time, 1 where it is left out. --log keeps the figures of each round (20,000 seeds; --round
is another number); rounds that are there already are not done again, so the same command goes on where it was stopped.
--show prints the figures of such a log, and does nothing else.

The library is that of clients/c/mseplay.py; with an archive of hostile/instrumented.py, which MSEPLAY_C names, what goes
wrong inside it is seen too. Needs a C compiler, without --plain clang with its sanitizers, and for --wasm node.
"""
import argparse
import collections
import concurrent.futures
import functools
import json
import os
import shutil
import subprocess
import sys
import tempfile
import time

HERE = os.path.dirname(os.path.abspath(__file__))
TOP = os.path.dirname(HERE)
C = os.path.join(TOP, "clients", "c")
DATA = os.path.join(TOP, "crates", "case_runs", "data")
REPLAY = os.path.join(HERE, "hostile", "replay.mjs")
SANITIZERS = ["-g", "-fsanitize=address,undefined", "-fno-sanitize-recover=all"]
REFUSALS = ["done", "InvalidStateError", "NotSupportedError", "QuotaExceededError", "TypeError", "NotFoundError",
            "NoSuchBuffer", "NoSuchBytes"]
SUMS = ["sessions", "steps", "gives", "looks", "blocks", "bytes", "plays", "refused_runs", "refused_ends"]
LISTS = ["statuses", "refusals", "play_statuses", "faults"]
MOSTS = ["longest", "most", "ratio"]

sys.path.insert(0, C)

import mseplay  # noqa: E402


def clang():
    """The path of a clang, or None."""
    names = ["clang", *(f"clang-{number}" for number in range(30, 13, -1))]
    return next(filter(None, map(shutil.which, names)), None)


def sources():
    folder = os.path.join(HERE, "hostile")
    return [os.path.join(HERE, "hostile.c"), *(os.path.join(folder, name) for name in sorted(os.listdir(folder))
                                               if name.endswith(".c") and name != "fuzz.c")]


def build(path, is_plain, archive=None):
    """Builds the program of the library at a path."""
    compiler = mseplay.compiler() if is_plain else clang()
    if compiler is None:
        raise FileNotFoundError("no clang here: it is in the Debian package clang")
    flags = ["-std=gnu11", "-O2", "-Wall", "-Wextra", "-Werror", *([] if is_plain else SANITIZERS)]
    subprocess.run([compiler, *flags, "-I", C, "-I", os.path.join(HERE, "hostile"), "-o", path, *sources(),
                    archive or mseplay.archive()], check=True)
    return path


def files():
    """The media files of the repository."""
    found = [os.path.join(folder, name) for folder, _, names in os.walk(DATA) for name in names]
    return sorted(name for name in found if name.endswith((".mp4", ".m4a", ".aac", ".bin")))


class Found(Exception):
    """Something is not as it must be."""


def run(program, first, count, *words):
    """What was counted of some seeds."""
    done = subprocess.run([program, str(first), str(count), *words, *files()], stdout=subprocess.PIPE,
                          stderr=subprocess.PIPE, stdin=subprocess.DEVNULL)
    if done.returncode != 0:
        raise Found(f"status {done.returncode} in the seeds {first} to {first + count - 1}\n"
                    + done.stderr.decode("utf-8", "replace"))
    return json.loads(done.stdout)


def run_in_node(program, first, count):
    """What was counted of some seeds, done natively and again in node."""
    command = [program, str(first), str(count), "dump", *files()]
    with subprocess.Popen(command, stdout=subprocess.PIPE, stderr=subprocess.PIPE, stdin=subprocess.DEVNULL) as native:
        again = subprocess.run(["node", REPLAY], stdin=native.stdout, capture_output=True, text=True)
        native.stdout.close()
        told = native.stderr.read().decode("utf-8", "replace")
    if native.returncode != 0 or again.returncode != 0:
        raise Found(f"status {native.returncode} and {again.returncode} in the seeds {first} to {first + count - 1}\n"
                    + told + again.stderr)
    return {"first": first, **json.loads(again.stdout)}


def added(figures, more):
    """Figures with those of another round."""
    if "left_out" in more:
        return collections.Counter(figures) + collections.Counter(more)
    for name in SUMS:
        figures[name] = figures.get(name, 0) + more[name]
    for name in LISTS:
        counter = collections.Counter(figures.get(name, {}))
        counter.update(more[name])
        figures[name] = dict(counter)
    for name in MOSTS:
        figures[name] = max(figures.get(name, [0]), more[name])
    return figures


def listed(counts, names=None):
    """The counts of a list, by name."""
    return ", ".join(f"{names[int(key)] if names else key}: {counts[key]:,}" for key in sorted(counts, key=int))


def node_table(figures):
    """The figures of sessions in node as rows."""
    yield "sessions", f"{figures['sessions']:,}"
    yield "steps; looks and blocks", f"{figures['steps']:,}; {figures['looks']:,}"
    yield "lines that are no UTF-8, left out", f"{figures['left_out']:,}"
    yield "calls of `mseplay_run`", f"{figures['runs']:,}"


def table(figures):
    """The figures as rows."""
    longest, most, ratio = (figures[name] for name in MOSTS)
    yield "sessions", f"{figures['sessions']:,}"
    yield "steps", f"{figures['steps']:,}"
    yield "blobs; looks; blocks", f"{figures['gives']:,}; {figures['looks']:,}; {figures['blocks']:,}"
    yield "bytes of blobs and lines", f"{figures['bytes']:,}"
    yield "calls of `mseplay_run`", f"{figures['plays']:,}"
    yield "statuses of steps", listed(figures["statuses"])
    yield "answers of calls", listed(figures["refusals"], REFUSALS)
    yield "statuses of `mseplay_run`", listed(figures["play_statuses"])
    yield "faults, 0 without one", listed(figures["faults"])
    yield "longest step", (f"{longest[0] / 1e6:.2f} ms, in a session that appends {longest[1]:,} bytes with {longest[2]:,} "
                           f"samples (seed {longest[3]})")
    yield "most memory", f"{most[0]:,} bytes, of {most[1]:,} bytes with {most[2]:,} samples (seed {most[3]})"
    yield "most memory for its input", f"{ratio[1]:,} bytes, of {ratio[2]:,} bytes (seed {ratio[3]})"
    if figures["refused_runs"]:
        ended = f"{figures['refused_ends']:,} ended a session"
        yield "runs with a refused allocation", f"{figures['refused_runs']:,}, of which {ended}"


def kept_rounds(path):
    """The rounds of a log, by their first seed."""
    if not path or not os.path.exists(path):
        return {}
    with open(path, encoding="utf-8") as log:
        return {each["first"]: each for each in map(json.loads, filter(str.strip, log))}


def do_rounds(given, do_round):
    """The figures of all rounds, those of the log too."""
    kept, figures = kept_rounds(given.log), {}
    starts = range(given.first, given.first + given.count, given.round)
    with concurrent.futures.ThreadPoolExecutor(given.processes) as pool:
        end = given.first + given.count
        runs = [pool.submit(do_round, start, min(given.round, end - start)) for start in starts if start not in kept]
        try:
            for done in concurrent.futures.as_completed(runs):
                keep(given.log, kept, done.result())
        except BaseException:
            pool.shutdown(wait=False, cancel_futures=True)
            raise
    for start in starts:
        figures = added(figures, kept[start])
    return figures


def keep(path, kept, figures):
    kept[figures["first"]] = figures
    if path:
        with open(path, "a", encoding="utf-8") as log:
            log.write(json.dumps(figures) + "\n")


def parsed():
    words = argparse.ArgumentParser(description=__doc__, formatter_class=argparse.RawDescriptionHelpFormatter)
    for name, number in ("--first", 0), ("--count", 10_000), ("--processes", 1), ("--round", 20_000):
        words.add_argument(name, type=int, default=number)
    words.add_argument("--plain", action="store_true")
    kinds = words.add_mutually_exclusive_group()
    kinds.add_argument("--memory", action="store_true")
    kinds.add_argument("--wasm", action="store_true")
    words.add_argument("--log")
    words.add_argument("--show", action="store_true")
    return words.parse_args()


def show(figures, is_node):
    print("| what | |\n|---|---|")
    for row in (node_table if is_node else table)(figures):
        print("| " + " | ".join(row) + " |")


def main():
    given = parsed()
    begin = time.monotonic()
    if given.show:
        figures = functools.reduce(added, kept_rounds(given.log).values(), {})
        return show(figures, "left_out" in figures)
    with tempfile.TemporaryDirectory() as folder:
        program = build(os.path.join(folder, "hostile"), given.plain)
        words = ["memory"] if given.memory else []
        do_round = functools.partial(run_in_node if given.wasm else run, program)
        try:
            figures = do_rounds(given, lambda first, count: do_round(first, count, *words))
        except Found as found:
            sys.exit(f"hostile.py: {found}")
    show(figures, given.wasm)
    print(f"\n{time.monotonic() - begin:.0f} s, over {os.path.basename(mseplay.archive())}")


if __name__ == "__main__":
    main()

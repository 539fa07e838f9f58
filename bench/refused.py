#!/usr/bin/env python3
"""Refuses each allocation of some runs in turn; not part of the gate.

    bench/refused.py [--program FILE] [--tests CRATE=FILE]..

The program is crates/mseplay/out/mseplay, as `rt run` leaves it in crates/mseplay, and the tests of a crate are
crates/CRATE/out/CRATE_tests, as `rt test` leaves them, where no other file is given. It needs Linux and a C compiler,
`cc`, for the library `refuse.c`.

Each run of the program is done once with all memory that it asks for, and then for each of its allocations with that one
refused, and with that one and all behind it refused. Each of these has to end with status 5 and a front part of the whole
text, or as the first run did. Each of the tests has to pass with any one of its allocations refused.
"""
import argparse
import os
import shutil
import subprocess
import sys
import tempfile
import time

HERE = os.path.dirname(os.path.abspath(__file__))
CRATES = os.path.join(HERE, "..", "crates")
DATA = os.path.join(CRATES, "case_runs", "data")
WORDS, MEMORY = 1, 5
RUNS = [
    ["ranges", "media/two-tracks.mp4"],
    ["ranges", "classic.m4a"],
    ["ranges", "nofile"],
    ["pieces", "100", "plain.mp4"],
    ["make", "2"],
    ["remux", "classic.m4a"],
    ["feed", "1/1", "audio.mp4"],
    ["play", "rules/more-than-drain-calls.toml"],
    ["play", "mode/in-a-segment-is-refused-and-opens-the-source.toml"],
    ["play", "work/of-two-buffers-in-turn.toml"],
    *(["play", name] for name in sorted(os.listdir(DATA)) if name.endswith(".toml")),
]
TESTS = [
    ("engine_tests", "tests::memory::each_step_again"),
    ("engine_tests", "tests::rule_listeners::calls_by_rules"),
    ("engine_tests", "tests::dispatches::cut_anywhere"),
]


def main():
    words = argparse.ArgumentParser(description=__doc__, formatter_class=argparse.RawDescriptionHelpFormatter)
    words.add_argument("--program", default=os.path.join(CRATES, "mseplay", "out", "mseplay"))
    words.add_argument("--tests", action="append", default=[], metavar="CRATE=FILE")
    given = words.parse_args()
    tests = dict(word.split("=", 1) for word in given.tests)
    begin = time.monotonic()
    with tempfile.TemporaryDirectory() as room:
        shutil.copytree(DATA, room, dirs_exist_ok=True)
        subprocess.run(["cc", "-O2", "-shared", "-fPIC", "-o", f"{room}/refuse.so", f"{HERE}/refuse.c"], check=True)
        bad = 0
        for run in RUNS:
            bad += check_run(room, os.path.abspath(given.program), run)
        for crate, test in TESTS:
            program = tests.get(crate, os.path.join(CRATES, crate, "out", f"{crate}_tests"))
            bad += check_test(room, os.path.abspath(program), test)
    print(f"{time.monotonic() - begin:.0f} s, {bad} ended otherwise")
    sys.exit(1 if bad else 0)


def run(room, words, refused):
    """The status, the text, and how many allocations were asked for."""
    count = f"{room}/count"
    added = {"LD_PRELOAD": f"{room}/refuse.so", "REFUSE": refused, "ALLOCATIONS": count}
    done = subprocess.run(words, cwd=room, env={**os.environ, **added}, stdin=subprocess.DEVNULL, stdout=subprocess.PIPE)
    asked = 0
    if os.path.exists(count):
        with open(count) as file:
            asked = int(file.read())
        os.remove(count)
    return done.returncode, done.stdout, asked


def check_run(room, program, words):
    """Does a run with each allocation refused in turn: how many of these ended as they must not."""
    status, whole, asked = run(room, [program, *words], "0")
    if status == WORDS:
        print(f"{' '.join(words)}: the program has no such command", flush=True)
        return 0
    through, halted, bad = 0, 0, 0
    for number in range(1, asked + 1):
        for refused in [f"{number}", f"{number}+"]:
            ended, text, _ = run(room, [program, *words], refused)
            if (ended, text) == (status, whole):
                through += 1
            elif ended == MEMORY and whole.startswith(text):
                halted += 1
            else:
                bad += 1
                print(f"  {' '.join(words)}, refused {refused}: status {ended}, {len(text)} bytes")
    print(f"{' '.join(words)}: status {status}, {asked} allocations; with a refusal {halted} runs at status {MEMORY} with a "
          f"front part, {through} with the whole text", flush=True)
    return bad


def check_test(room, program, test):
    """Does a test with each allocation refused in turn: how often it failed."""
    status, _, asked = run(room, [program, test], "0")
    failed = [number for number in range(1, asked + 1) if run(room, [program, test], f"{number}")[0] != 0]
    if status != 0 or asked == 0:
        failed.append(0)
    print(f"{test}: status {status}, {asked} allocations; it failed with the refusal of {failed or 'none'}", flush=True)
    return len(failed)


main()

#!/usr/bin/env python3
"""Tries the parsers of the static library with inputs that libFuzzer makes, guided by what the library runs through.

    bench/hostile/guided.py ARCHIVE [SECONDS]
    bench/hostile/guided.py ARCHIVE SECONDS --smallest

ARCHIVE is what instrumented.py beside it builds. Needs clang with its library of the fuzzer (`libclang-rt-dev` of Debian).
It begins with the inputs of corpus/ beside it and with the repository's files and scripts; what is found is checked as
fuzz.c says. Ends with status 1 where something is not so, and leaves the input in the current folder. Where SECONDS is left
out, 60.

--smallest runs for SECONDS, and then puts into corpus/ the smallest of all inputs that run through what the repository's
files and scripts do not. The first byte of an input says which parser it is for.
"""
import os
import re
import shutil
import subprocess
import sys
import tempfile

HERE = os.path.dirname(os.path.abspath(__file__))
sys.path.insert(0, os.path.dirname(HERE))

import hostile  # noqa: E402

CORPUS = os.path.join(HERE, "corpus")
SOURCES = ["fuzz.c", "heap.c", "printed.c", "samples.c", "steps.c", "text.c"]
MOVIE, FRAMES, CLASSIC, SCRIPT, LINES, ADTS = range(6)
MOST = 4096


def build(path, archive):
    compiler = hostile.clang()
    if compiler is None:
        sys.exit("guided.py: no clang here: it is in the Debian package clang")
    subprocess.run([compiler, "-std=gnu11", "-g", "-O1", "-fsanitize=fuzzer,address", "-I", hostile.C, "-I", HERE, "-o", path,
                    *(os.path.join(HERE, name) for name in SOURCES), archive], check=True)


def put_first_inputs(folder):
    """The repository's files and scripts, each for its parsers."""
    number = 0
    for parent, _, names in os.walk(hostile.DATA):
        for name in names:
            with open(os.path.join(parent, name), "rb") as file:
                content = file.read(MOST + 1)
            kinds = {".toml": [SCRIPT], ".aac": [ADTS]}.get(os.path.splitext(name)[1], [])
            if name.endswith((".mp4", ".m4a", ".bin")):
                kinds = [MOVIE, FRAMES, CLASSIC]
            for kind in kinds if len(content) < MOST else []:
                number += 1
                with open(os.path.join(folder, f"{number}"), "wb") as file:
                    file.write(bytes([kind]) + content)
    lines = subprocess.run(["grep", "-rhoE", r"\"[a-z]+( [^\"]*)?\"", "--include=*.toml", hostile.DATA], stdout=subprocess.PIPE)
    words = sorted(set(lines.stdout.decode().replace('"', "").splitlines()))
    for start in range(0, len(words), 40):
        with open(os.path.join(folder, f"lines-{start}"), "wb") as file:
            file.write(bytes([LINES]) + "\n".join(words[start:start + 40]).encode())


def fuzz(program, folders, seconds):
    """Runs the fuzzer; its last figures."""
    done = subprocess.run([program, f"-max_total_time={seconds}", f"-max_len={MOST}", "-rss_limit_mb=4096", "-timeout=60",
                           "-print_final_stats=1", *folders], stderr=subprocess.PIPE, text=True, errors="replace")
    if done.returncode != 0:
        sys.stderr.write(done.stderr[-6000:])
        sys.exit(1)
    runs = re.search(r"number_of_executed_units: +(\d+)", done.stderr)[1]
    through = re.findall(r"cov: (\d+) ft: (\d+) corp: (\d+)", done.stderr)[-1]
    print(f"{int(runs):,} inputs in {seconds} s, {int(through[0]):,} places run through, {int(through[1]):,} features, "
          f"{through[2]} inputs kept; nothing was found")


def put_smallest(program, found, first):
    """The smallest inputs that add to what the first ones run through, by their number."""
    known = set(os.listdir(first))
    subprocess.run([program, "-set_cover_merge=1", "-use_counters=0", f"-max_len={MOST}", first, found, CORPUS], stderr=subprocess.DEVNULL, check=True)
    for name in os.listdir(CORPUS):
        os.remove(os.path.join(CORPUS, name))
    kept = sorted((os.path.getsize(os.path.join(first, name)), name) for name in os.listdir(first) if name not in known)
    for number, (_, name) in enumerate(kept):
        shutil.move(os.path.join(first, name), os.path.join(CORPUS, f"{number:04}"))
    print(f"{len(kept)} inputs in {CORPUS}")


def main():
    words = sys.argv[1:]
    is_smallest = words[2:] == ["--smallest"]
    if len(words) not in (1, 2) and not is_smallest:
        sys.exit(__doc__.strip())
    os.makedirs(CORPUS, exist_ok=True)
    with tempfile.TemporaryDirectory() as room:
        program, found, first = (os.path.join(room, name) for name in ("fuzz", "found", "first"))
        build(program, os.path.abspath(words[0]))
        os.mkdir(found)
        os.mkdir(first)
        put_first_inputs(first)
        fuzz(program, [found, first, CORPUS], int(words[1]) if len(words) > 1 else 60)
        if is_smallest:
            put_smallest(program, found, first)


if __name__ == "__main__":
    main()

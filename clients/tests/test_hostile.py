"""Hostile use of the static library: some seconds of bench/hostile.py, with fixed seeds."""

import subprocess
import sys
import tempfile
from pathlib import Path

import kit
from c_kit import archive_and_compiler, sanitizing

sys.path[:0] = [str(kit.REPOSITORY / "bench"), str(kit.REPOSITORY / "bench" / "hostile")]

import guided  # noqa: E402
import hostile  # noqa: E402

PLAIN, SANITIZED, MEMORY = 60_000, 2_000, 12
FIRST = 1_000_000_000


def figures(is_plain, count, *words):
    """What was counted of sessions from a fixed seed on."""
    archive_and_compiler()
    with tempfile.TemporaryDirectory() as folder:
        program = hostile.build(Path(folder) / "hostile", is_plain)
        return hostile.run(program, FIRST, count, *words)


def told(counts):
    return f"{counts['sessions']:,} sessions, {counts['steps']:,} steps, {counts['plays']:,} scripts"


def check_spread(counts):
    """The sessions meet each status, each refusal and most faults."""
    assert set(counts["statuses"]) == {"0", "2", "8"}
    assert set(counts["refusals"]) == set("01234567")
    assert set(counts["play_statuses"]) == {"0", "2", "6", "7", "8", "9"}
    assert len(counts["faults"]) > 12


def test_plain():
    """Sessions, their scripts, their rules and their files, without sanitizers."""
    counts = figures(True, PLAIN)
    assert counts["sessions"] == PLAIN
    check_spread(counts)
    return told(counts)


def clang():
    """The path of a clang, or a skip."""
    path = hostile.clang()
    if path is None:
        raise kit.Skip("no clang here: it is in the Debian package clang")
    return path


def test_sanitized():
    """The same under the address and undefined behaviour sanitizers of clang."""
    sanitizing(clang(), "clang")
    return told(figures(False, SANITIZED))


def test_smallest_inputs():
    """The inputs that libFuzzer kept, each through its parser once."""
    archive, _ = archive_and_compiler()
    inputs = sorted(map(str, Path(guided.CORPUS).iterdir()))
    assert len(inputs) > 100
    with tempfile.TemporaryDirectory() as folder:
        path = Path(folder) / "fuzz"
        tried = subprocess.run([clang(), "-fsanitize=fuzzer", "-x", "c", "-", "-o", path], capture_output=True,
                               input=b"int LLVMFuzzerTestOneInput(const char *data, long size) { return !data * !size; }")
        if tried.returncode != 0:
            raise kit.Skip("clang has no library of the fuzzer here: it is in the Debian package libclang-rt-dev")
        guided.build(path, archive)
        done = subprocess.run([path, *inputs], stderr=subprocess.PIPE, cwd=folder)
    assert done.returncode == 0, done.stderr.decode("utf-8", "replace")[-3000:]
    return f"{len(inputs)} inputs"


def test_refused_memory():
    """Each allocation of some sessions refused, alone and with all behind it."""
    counts = figures(True, MEMORY, "memory")
    assert counts["sessions"] == MEMORY and counts["refused_ends"] > 10 * MEMORY
    return f"{counts['refused_runs']:,} runs"

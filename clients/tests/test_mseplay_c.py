"""The static library mseplay_c: from a program in C, and from Python."""

import os
import re
import subprocess
import sys
import tempfile
from pathlib import Path

import kit
from c_kit import C, HEAP, READ, archive_and_compiler, build, by_program, mseplay

SMALL = b'steps = ["attach", "add video/mp4", "append 0 0", "drain", "buffered 0"]\nblobs = ["file plain.mp4"]\n'


def files_of(script):
    """The names of the files that a script of examples/ names."""
    return re.findall(r'"file ([^"]+)"', (kit.EXAMPLES / script).read_text())


def processor_seconds():
    """Of this process and of the programs that it started and waited for."""
    return sum(os.times()[:4])


def test_program_in_c():
    """play.c prints of each script of examples/ what the program prints, and ends with its status."""
    archive_and_compiler()
    kit.program()
    scripts = sorted(path.name for path in kit.EXAMPLES.glob("*.toml"))
    assert scripts
    with tempfile.TemporaryDirectory() as folder:
        path = build(Path(folder) / "play", C / "play.c", READ, HEAP)
        for script in scripts:
            done = subprocess.run([path, script, *files_of(script)], cwd=kit.EXAMPLES,
                                  stdout=subprocess.PIPE, timeout=120)
            assert (done.returncode, done.stdout) == by_program(["play", script]), script
        lost = subprocess.run([path, "lost.toml"], cwd=folder, capture_output=True)
        assert (lost.returncode, lost.stdout, lost.stderr) == (8, b"", b"play: no file lost.toml\n")
    return f"{len(scripts)} scripts"


def lines_of_guide(language):
    """The lines that clients/README.md shows in this language, on calls from a program of one's own."""
    guide = (kit.REPOSITORY / "clients" / "README.md").read_text()
    section = guide.split("## How do I call it from my own program?")[1].split("\n## ")[0]
    return re.search(rf"```{language}\n(.*?)```", section, re.S).group(1)


def test_guide_in_c():
    """The lines in C that clients/README.md shows print the file of one segment."""
    archive, compiler = archive_and_compiler()
    include, _, call = lines_of_guide("c").partition("\n")
    text = (f"#include <stdio.h>\n{include}\nint main(void) {{\n{call}"
            "fwrite(room, 1, written, stdout); return status; }\n")
    with tempfile.TemporaryDirectory() as folder:
        path = Path(folder) / "guide"
        subprocess.run([compiler, "-std=c99", "-Wall", "-Wextra", "-Werror", "-I", C, "-o", path, "-x", "c", "-",
                        "-x", "none", C / "heap.c", archive], input=text.encode(), check=True)
        done = subprocess.run([path], stdout=subprocess.PIPE, timeout=120)
    assert done.returncode == 0 and done.stdout.startswith(b"made 1 bytes 1756 frames 30\n")


def test_guide_in_python():
    """So do those in Python, and then they print the ranges of a file."""
    archive_and_compiler()
    kit.program()
    done = subprocess.run([sys.executable, "-c", lines_of_guide("python") + "print(status, printed)\n"], timeout=120,
                          cwd=kit.REPOSITORY, env={**os.environ, "PYTHONPATH": str(C)}, stdout=subprocess.PIPE)
    assert done.stdout.decode() == "{} {}\n".format(*by_program(["ranges", "plain.mp4"]))


def test_from_python():
    """Each command does in one call what the program does, also where it refuses."""
    archive_and_compiler()
    kit.program()
    run = mseplay.Library()
    names = ["plain.mp4", "gap.mp4", "classic.mp4", "classic.m4a", "note.bin", "no-tfdt.mp4"]
    files = {name: (kit.EXAMPLES / name).read_bytes() for name in names}
    calls = [[command, name] for command in ("ranges", "remux") for name in names]
    calls += [["pieces", "7", "gap.mp4"], ["make", "3"], ["feed", "1/10", "gap.mp4"], ["ranges", "lost.mp4"],
              ["play", "plain.mp4"], ["ranges"], []]
    for words in calls:
        assert run(words, files) == by_program(words), words
    assert run([b"ranges", b"\xff"], files) == (1, b"error: words\n")
    assert {run(words, files)[0] for words in calls} == {0, 1, 2, 8, 9}
    return f"{len(calls)} calls"


def test_room():
    """Where the room is too small its front is filled, and how much is printed is told."""
    archive_and_compiler()
    run = mseplay.Library()
    status, printed = run(["make", "1"])
    assert status == 0 and printed.startswith(b"made 1 bytes 1756 frames 30\n")
    for size in [0, 1, len(printed) - 1, len(printed), len(printed) + 5]:
        behind = bytes(max(0, size - len(printed)))
        assert run.call(["make", "1"], {}, size) == (0, len(printed), printed[:size] + behind)


def test_more_than_the_first_room():
    """What is longer than the first room is printed whole, by a second call."""
    archive_and_compiler()
    run = mseplay.Library()
    script = b'steps = [' + b'"state", ' * 2000 + b']\n'
    status, printed = run(["play", "script"], {"script": script})
    assert status == 0 and len(printed) > mseplay.FIRST_ROOM
    assert printed.count(b"call state: ") == 2000


def test_thousand_runs():
    """A thousand runs in one process take less than a tenth of those by starting the program."""
    archive_and_compiler()
    kit.program()
    run = mseplay.Library()
    files = {"small.toml": SMALL, "plain.mp4": (kit.EXAMPLES / "plain.mp4").read_bytes()}
    words = ["play", "small.toml"]
    with tempfile.TemporaryDirectory() as folder:
        for name, data in files.items():
            (Path(folder) / name).write_bytes(data)
        start = processor_seconds()
        started = {by_program(words, folder) for _ in range(1000)}
        by_starting = processor_seconds() - start
    start = processor_seconds()
    called = {run(words, files) for _ in range(1000)}
    by_calls = processor_seconds() - start
    told = f"{by_calls:.2f} processor seconds by calls, {by_starting:.2f} by starting the program"
    assert called == started and len(called) == 1
    assert by_calls < by_starting / 10, told
    return told

"""clients/dask: a scheduler and three workers on this machine, of which some are killed."""

import contextlib
import json
import os
import shutil
import signal
import subprocess
import sys
import tempfile
import time
from pathlib import Path

import kit
from c_kit import C, archive_and_compiler, mseplay

DASK = kit.CLIENTS / "dask"
SCRIPT = DASK / "mseplay_dask.py"

# Runs a catalogue with a task that notes each try, and ends its process for a file as told.
DRIVER = """
import json, os, signal, sys, time
import mseplay_dask
from distributed import Client

scheduler, notes, deadly, times, *paths = sys.argv[1:]

def task(path, remux):
    with open(notes, "a") as file:
        file.write(path + "\\n")
    with open(notes) as file:
        tries = file.read().split("\\n").count(path)
    time.sleep(0.05)
    if path == deadly and tries <= int(times):
        os.kill(os.getpid(), signal.SIGKILL)
    return mseplay_dask.line_of(path, remux)

with Client(scheduler_file=scheduler) as client:
    client.wait_for_workers(3)
    for line in mseplay_dask.catalogue(client, paths, task=task):
        print(line, flush=True)
"""


def python():
    """A Python that has distributed, or a skip."""
    for path in filter(os.path.exists, (sys.executable, "/usr/bin/python3")):
        if subprocess.run([path, "-c", "import distributed"], capture_output=True).returncode == 0:
            return path
    raise kit.Skip("no distributed here: it is in the Debian package python3-distributed")


def environment():
    return {**os.environ, "PYTHONPATH": f"{DASK}:{C}", "MSEPLAY_C": str(mseplay.archive())}


@contextlib.contextmanager
def cluster(folder):
    """A scheduler and three workers of one thread each, and the file that has the scheduler's address."""
    place, path = Path(folder) / "scheduler.json", python()
    running = []

    def start(kind, *words):
        log = open(Path(folder) / f"{kind}-{len(running)}.log", "wb")
        words = [path, "-m", f"distributed.cli.dask_{kind}", "--scheduler-file", str(place), "--no-dashboard", *words]
        running.append(subprocess.Popen(words, cwd=folder, env=environment(), stdout=log, stderr=log))
        log.close()

    try:
        start("scheduler", "--host", "127.0.0.1", "--port", "0")
        for number in range(3):
            start("worker", "--no-nanny", "--nthreads", "1", "--name", f"worker-{number}")
        deadline = time.monotonic() + 60
        while not place.exists():
            assert time.monotonic() < deadline, (Path(folder) / "scheduler-0.log").read_text()
            time.sleep(0.05)
        yield place
    finally:
        for process in reversed(running):
            process.kill()
            process.wait()


def copies(folder, count):
    """So many files: the examples again and again."""
    examples = sorted(kit.EXAMPLES.glob("*.mp4"))
    paths = []
    for number in range(count):
        example = examples[number % len(examples)]
        paths.append(str(shutil.copy(example, Path(folder) / f"{number}-{example.name}")))
    return paths


def whole(paths):
    """The lines of a run in this process, sorted."""
    found = [json.dumps(mseplay.inspect(path), separators=(",", ":"), ensure_ascii=False) for path in paths]
    return sorted(found)


def driven(folder, scheduler, paths, deadly, times):
    """The lines of a catalogue, and how often each file was tried."""
    notes = Path(folder) / "notes"
    words = [python(), "-c", DRIVER, scheduler, notes, deadly, str(times), *paths]
    done = subprocess.run(words, env=environment(), stdout=subprocess.PIPE, timeout=240, check=True)
    tried = notes.read_text().splitlines()
    return done.stdout.decode().splitlines(), {path: tried.count(path) for path in paths}


def test_killed_worker():
    """A worker that is killed in the middle costs its own file a second try and nothing else. The result is that of a
    whole run, byte for byte when sorted."""
    archive_and_compiler()
    with tempfile.TemporaryDirectory() as folder, cluster(folder) as scheduler:
        paths = copies(folder, 60)
        lines, tries = driven(folder, scheduler, paths, paths[20], 1)
        assert tries == {path: 2 if path == paths[20] else 1 for path in paths}
        assert sorted(lines) == whole(paths)


def test_file_that_fails_twice():
    """A file whose worker ends twice is told, and all others are done by the one that is left."""
    archive_and_compiler()
    with tempfile.TemporaryDirectory() as folder, cluster(folder) as scheduler:
        paths = copies(folder, 30)
        lines, tries = driven(folder, scheduler, paths, paths[4], 9)
        assert tries == {path: 2 if path == paths[4] else 1 for path in paths}
        told = [line for line in lines if json.loads(line)["file"] == paths[4]]
        assert [json.loads(line)["error"] for line in told] == [
            {"code": "WorkerEnded", "text": "its worker ended 2 times"}]
        assert sorted(set(lines) - set(told)) == whole([path for path in paths if path != paths[4]])


def address_in(scheduler):
    return json.loads(scheduler.read_text())["address"]


def test_killed_client():
    """A run that is killed goes on with its result; a file that is not there is a line."""
    archive_and_compiler()
    with tempfile.TemporaryDirectory() as folder, cluster(folder) as scheduler:
        media, result = Path(folder) / "media", Path(folder) / "result"
        media.mkdir()
        paths = copies(media, 200)
        lost = str(Path(folder) / "lost.mp4")
        words = [python(), SCRIPT, "--scheduler", address_in(scheduler), "--to", result, media, lost]
        process = subprocess.Popen(words, env=environment(), stderr=subprocess.DEVNULL)
        while process.poll() is None and not (result.exists() and result.read_bytes().count(b"\n") >= 50):
            time.sleep(0.005)
        process.send_signal(signal.SIGKILL)
        assert process.wait() == -signal.SIGKILL
        text = result.read_bytes()
        result.write_bytes(text[:-9])
        kept = text[:-9].rpartition(b"\n")[0]
        done = subprocess.run(words, env=environment(), capture_output=True, timeout=240)
        assert done.returncode == 9, done.stderr
        lines = result.read_text().splitlines()
        assert result.read_bytes().startswith(kept + b"\n")
        [unread] = [json.loads(line) for line in lines if json.loads(line)["file"] == lost]
        assert unread["error"]["code"] == "FileNotFoundError"
        assert sorted(line for line in lines if json.loads(line)["file"] != lost) == whole(paths)
    return f"{kept.count(10) + 1} lines were kept of {len(lines)}"


def test_foreign_result():
    """A file that has no lines of a catalogue stays as it is."""
    archive_and_compiler()
    with tempfile.TemporaryDirectory() as folder:
        result = Path(folder) / "result"
        result.write_bytes(b"no line\n")
        words = [python(), SCRIPT, "--scheduler", "tcp://127.0.0.1:1", "--to", result, folder]
        done = subprocess.run(words, env=environment(), capture_output=True, timeout=60)
        assert b"no line of a catalogue" in done.stderr and done.returncode == 1
        assert result.read_bytes() == b"no line\n"

#!/usr/bin/env python3
"""Inspects files on the workers of a Dask scheduler: js/CATALOGUE.md, "On many machines".

    mseplay_dask.py --scheduler ADDRESS --to RESULT [--remux] [--from LIST] FILE|FOLDER..

All workers see the files, and this repository, by the same paths. RESULT gets a line of JSON for each file; what it has
is not done again. A thread of a worker has one file at a time, so a worker that ends costs the files of its threads a
second try, and nothing else. What fails twice has a line that says so. The status is 9 where a file had a fault, else 3
where one could not be read or failed twice.

Needs distributed, of the Debian package python3-distributed, and on each worker a C compiler.
"""

import argparse
import collections
import json
import os
import sys
import time
from pathlib import Path

import cloudpickle
from distributed import Client, wait

C = str(Path(__file__).resolve().parent.parent / "c")
# The ends of names by which files of a folder are taken.
ENDS = (".mp4", ".m4s", ".m4v", ".m4a", ".m4f", ".mp4v", ".mp4a", ".cmfv", ".cmfa", ".mov", ".aac", ".adts")
TRIES = 2
READ, FAULT = 3, 9
FRONT = b'{"file":"'


class NoLibrary(Exception):
    """A worker cannot load the library; the text says why."""


class NoWorker(Exception):
    """The scheduler has had no worker for too long."""


class NoResult(Exception):
    """The file is not the result of a catalogue. Nothing of it is changed."""


def line_of(path, remux=False, folder=C):
    """The line of a file, on a worker."""
    if folder not in sys.path:
        sys.path.insert(0, folder)
    try:
        import mseplay

        library = mseplay.sessions_library()
    except Exception as error:
        raise NoLibrary(str(error)) from None
    try:
        found = mseplay.inspect(path, remux, library)
    except OSError as error:
        found = {"file": path, "error": {"code": type(error).__name__, "text": str(error)}}
    return json.dumps(found, separators=(",", ":"), ensure_ascii=False)


def failed_line(path, code, text):
    return json.dumps({"file": path, "error": {"code": code, "text": text}}, separators=(",", ":"), ensure_ascii=False)


class Workers:
    """Which workers there are, asked for anew once a second, and how many files each of them has."""

    def __init__(self, client, patience):
        self.client, self.patience = client, patience
        self.threads, self.asked, self.seen = {}, 0.0, time.monotonic()

    def look(self):
        now = time.monotonic()
        if now - self.asked < 1 and self.threads:
            return
        found = self.client.scheduler_info()["workers"]
        self.threads = {address: worker["nthreads"] for address, worker in found.items()}
        self.asked = now
        if self.threads:
            self.seen = now
        elif now - self.seen > self.patience:
            raise NoWorker(f"no worker for {self.patience} seconds")

    def free(self, busy):
        """The worker with the most threads that have no file, or None."""
        left = {address: threads - busy[address] for address, threads in self.threads.items()}
        best = max(left, key=left.get, default=None)
        return best if best is not None and left[best] > 0 else None


class Catalogue:
    """The files that are left, those that are out at a worker, and how often each was given out."""

    def __init__(self, client, paths, remux, task, patience):
        self.client, self.remux, self.task = client, remux, task
        self.workers = Workers(client, patience)
        self.left = collections.deque(paths)
        self.out, self.tries, self.given = {}, collections.Counter(), 0

    def give(self):
        busy = collections.Counter(worker for _, worker in self.out.values())
        while self.left and (worker := self.workers.free(busy)):
            path = self.left.popleft()
            self.tries[path] += 1
            self.given += 1
            key = f"mseplay-{os.getpid()}-{id(self)}-{self.given}"
            future = self.client.submit(self.task, path, self.remux, key=key, workers=[worker],
                                        allow_other_workers=False, pure=False, retries=0)
            self.out[future] = path, worker
            busy[worker] += 1

    def fail(self, future, code, text):
        """A file failed: its line, where that was its second try."""
        path, _ = self.out.pop(future)
        future.cancel()
        if self.tries[path] < TRIES:
            self.left.appendleft(path)
            return None
        return failed_line(path, code, text)

    def take(self, future):
        """What a future that has ended comes to: a line, or None where there is none yet."""
        if future.status == "finished":
            try:
                line = future.result(timeout=5)
            except TimeoutError:
                return None
            del self.out[future]
            return line
        error = future.exception()
        if isinstance(error, NoLibrary):
            raise error
        if type(error).__name__ == "KilledWorker":
            return self.fail(future, "WorkerEnded", f"its worker ended {TRIES} times")
        return self.fail(future, type(error).__name__, str(error))

    def lines(self):
        while self.left or self.out:
            self.workers.look()
            gone = [future for future, (_, worker) in self.out.items() if worker not in self.workers.threads]
            found = [self.fail(future, "WorkerEnded", f"its worker ended {TRIES} times") for future in gone]
            self.give()
            found += [self.take(future) for future in self.ended()]
            yield from filter(None, found)

    def ended(self):
        """The futures that have ended, after half a second at most."""
        if not self.out:
            time.sleep(0.5)
            return []
        try:
            return list(wait(list(self.out), timeout=0.5, return_when="FIRST_COMPLETED").done)
        except TimeoutError:
            return []


def catalogue(client, paths, remux=False, task=line_of, patience=60):
    """The line of each file, as they come. `task` is called on a worker with the path and `remux`."""
    cloudpickle.register_pickle_by_value(sys.modules[__name__])
    try:
        yield from Catalogue(client, dict.fromkeys(paths), remux, task, patience).lines()
    finally:
        cloudpickle.unregister_pickle_by_value(sys.modules[__name__])


class Result:
    """The file of lines, which a stopped run goes on with. A line that was broken off at its end is taken away."""

    def __init__(self, path):
        self.done, kept = {}, 0
        self.file = open(path, "a+b")
        self.file.seek(0)
        for number, line in enumerate(self.file, 1):
            if not line.endswith(b"\n") and (line.startswith(FRONT) or FRONT.startswith(line)):
                break
            try:
                found = json.loads(line) if line.endswith(b"\n") else None
                self.done[found["file"]] = found
            except (ValueError, TypeError, KeyError):
                self.file.close()
                raise NoResult(f"{path}:{number}: no line of a catalogue, so nothing is written to this file") from None
            kept += len(line)
        self.file.truncate(kept)

    def add(self, line):
        found = json.loads(line)
        self.done[found["file"]] = found
        self.file.write(line.encode("utf-8", "surrogateescape") + b"\n")
        self.file.flush()

    def status(self, paths):
        lines = [self.done[path] for path in paths]
        if any(line.get("fault") or (line.get("remux") or {}).keys() & {"fault", "error"} for line in lines):
            return FAULT
        return READ if any("error" in line for line in lines) else 0


def files_of(names):
    """The files of names and folders, each once, by absolute paths."""
    found = {}
    for name in map(os.path.abspath, names):
        if not os.path.isdir(name):
            found[name] = None
        for folder, folders, files in os.walk(name):
            folders.sort()
            media = [one for one in sorted(files) if one.lower().endswith(ENDS)]
            found.update(dict.fromkeys(os.path.join(folder, one) for one in media))
    return list(found)


def words():
    parser = argparse.ArgumentParser(description=__doc__.split("\n")[0])
    parser.add_argument("--scheduler", required=True, help="its address, as tcp://HOST:8786")
    parser.add_argument("--to", required=True, metavar="RESULT", help="the file that gets the lines")
    parser.add_argument("--remux", action="store_true", help="classic files are made into fragments")
    parser.add_argument("--from", dest="lists", action="append", default=[], metavar="LIST", help="names, one a line")
    parser.add_argument("names", nargs="*", metavar="FILE")
    return parser.parse_args()


def main():
    told = words()
    listed = [name for path in told.lists for name in Path(path).read_text().split("\n") if name]
    paths = files_of([*told.names, *listed])
    result = Result(told.to)
    left, shown = [path for path in paths if path not in result.done], time.monotonic()
    with Client(told.scheduler) as client:
        for count, line in enumerate(catalogue(client, left, told.remux), 1):
            result.add(line)
            if time.monotonic() - shown > 10 or count == len(left):
                shown = time.monotonic()
                print(f"{count:,} of {len(left):,} files", file=sys.stderr, flush=True)
    return result.status(paths)


if __name__ == "__main__":
    try:
        sys.exit(main())
    except (NoLibrary, NoWorker, NoResult) as error:
        sys.exit(f"mseplay_dask.py: {error}")

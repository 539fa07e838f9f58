#!/usr/bin/env python3
"""Tries the clients of this folder.

    ./check.py               runs every test of tests/test_*.py
    ./check.py page_use      runs those of tests/test_page_use.py
    ./check.py page_use.dark runs those whose name has these letters

    ROUNDS=1 ./check.py      tries each page of tests/test_pages.py once, and not five times

A test that needs what is not installed is skipped, and its line says what is
missing. The tests that run the program take its path from the environment
variable MSEPLAY, else crates/mseplay/out/mseplay, else that of
bench/unproved.py, mseplay-unproved at the top.

The status is 1 where a test failed, and 2 where no test has the name asked for.
"""

import importlib
import signal
import sys
import time
import traceback
from pathlib import Path

TESTS = Path(__file__).resolve().parent / "tests"
sys.path.insert(0, str(TESTS))
sys.dont_write_bytecode = True

import kit  # noqa: E402


def modules():
    """The names of the files of tests, in the order of the alphabet."""
    return sorted(path.stem for path in TESTS.glob("test_*.py"))


def tests_of(module):
    """The tests of a module in the order in which they stand in its file."""
    functions = [
        value
        for name, value in vars(module).items()
        if name.startswith("test_") and callable(value)
        and getattr(value, "__module__", None) == module.__name__
    ]
    functions.sort(key=lambda function: function.__code__.co_firstlineno)
    return functions


def short(name):
    return name.removeprefix("test_")


def is_wanted(name, wanted):
    """Whether the test MODULE.TEST is asked for by one of the words."""
    for word in wanted:
        module, _, test = word.partition(".")
        if name.startswith(module + ".") and test in name[len(module) + 1:]:
            return True
    return not wanted


def run_one(function):
    """The word of the outcome, a sentence on it, and the text of a failure."""
    try:
        sentence = function()
    except kit.Skip as skip:
        return "skip", str(skip), None
    except Exception as error:
        first = (str(error) or type(error).__name__).splitlines()[0]
        return "FAIL", first, traceback.format_exc()
    return "ok", sentence if isinstance(sentence, str) else "", None


def load(name):
    """A module of tests, or the text of the failure to load it."""
    try:
        return importlib.import_module(name), None
    except kit.Skip as skip:
        return None, ("skip", str(skip), None)
    except Exception as error:
        return None, ("FAIL", f"does not load: {error}", traceback.format_exc())


class Report:
    """Prints a line for each test, and counts them."""

    def __init__(self):
        self.counts = {"ok": 0, "FAIL": 0, "skip": 0}

    def tell(self, name, outcome, seconds):
        word, sentence, text = outcome
        self.counts[word] += 1
        behind = f": {sentence}" if sentence else ""
        print(f"{word:4} {name} ({seconds:.1f} s){behind}", flush=True)
        if text:
            print("     " + text.rstrip().replace("\n", "\n     "), flush=True)

    def close(self):
        passed, failed, skipped = (self.counts[word] for word in ("ok", "FAIL", "skip"))
        print(f"{passed} passed, {failed} failed, {skipped} skipped")
        if failed:
            return 1
        return 0


def run_module(name, wanted, report):
    """Runs the wanted tests of one file."""
    group = short(name)
    if wanted and not any(word.partition(".")[0] == group for word in wanted):
        return
    module, outcome = load(name)
    if module is None:
        report.tell(group, outcome, 0.0)
        return
    try:
        for function in tests_of(module):
            full = f"{group}.{short(function.__name__)}"
            if is_wanted(full, wanted):
                start = time.monotonic()
                outcome = run_one(function)
                report.tell(full, outcome, time.monotonic() - start)
    finally:
        getattr(module, "close", lambda: None)()


def main(wanted):
    report = Report()
    try:
        for name in modules():
            run_module(name, wanted, report)
    finally:
        kit.close_all()
    if wanted and not sum(report.counts.values()):
        print("no test has this name; there are tests of: "
              + ", ".join(short(name) for name in modules()))
        return 2
    return report.close()


if __name__ == "__main__":
    # So that a run that is told to end ends Chromium too.
    signal.signal(signal.SIGTERM, lambda *_: sys.exit(143))
    sys.exit(main(sys.argv[1:]))

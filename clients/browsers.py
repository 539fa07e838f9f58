#!/usr/bin/env python3
"""Tries the rows of docs/BROWSERS.md again, on each browser that is installed.

    browsers.py                  all rows of rows/rows.toml
    browsers.py late.toml GAP    those whose script or row has one of these words in it
    browsers.py --play SCRIPT    plays a script on each browser, and lays it beside the program as compare.py does

Each script is played by play.html in the browser, without a window, and by the program; the row is *as told* where the
browsers that the table names differ as the row says, and nothing else differs. Chromium is driven over its debugging
pipe, Firefox by Marionette, which is its own. What is not installed is said and left out.

Status 0: all rows are as told; 1: one has changed; 2: nothing was tried.
"""
import base64
import concurrent.futures
import json
import sys
import tomllib
from pathlib import Path

sys.dont_write_bytecode = True
CLIENTS = Path(__file__).resolve().parent
sys.path.insert(0, str(CLIENTS))

import compare  # noqa: E402
import scripts  # noqa: E402
from drivers import BROWSERS, NotDriven  # noqa: E402

ROWS = CLIENTS / "rows"
PLAY = CLIENTS / "play.html"


def packed(script):
    """A script with its files, as play.html takes them."""
    read = scripts.read(script)
    files = {name: base64.b64encode(path.read_bytes()).decode() for name, path in read.files.items()}
    return json.dumps({"script": read.text, "files": files, "options": {}})


# The rows.


def place(lines, text):
    return max((line.index for line in lines if line.text == text), default=-1)


def has_other_order(run, first, second):
    """Whether the two lines come in one order in the program and in the other one in the browser."""
    ours = place(run.program, first) < place(run.program, second)
    theirs = place(run.browser, first) < place(run.browser, second)
    return ours != theirs


def shows(row, run, found):
    """Whether the difference of the row is there."""
    if "order" in row:
        return has_other_order(run, *row["order"])
    return any(one.row and compare.base_row(one.row) == row["row"] for one in found)


def changes(row, browser, run, found):
    """What is otherwise than the row tells, in sentences."""
    is_told, is_there = browser.name in row["differs"], shows(row, run, found)
    if is_told and not is_there:
        yield "the difference is not there any more"
    if is_there and not is_told:
        yield "there is a difference, and the table of rows names none in this browser"
    for one in found:
        if not one.row:
            yield f"a difference that no row tells of: {compare.told(one)}"


# how often a row is tried until it is as told: a browser does not do the same in every run
TRIES = 3


def try_row(row, browser):
    """What is otherwise than the row tells each time that it is tried."""
    script = ROWS / row["script"]
    for _ in range(TRIES):
        told = browser.page(PLAY).call("playPacked", packed(script))
        run, _, found = compare.compared(script, compare.printed(script), told)
        changed = list(changes(row, browser, run, found))
        if not changed:
            break
    return changed


def try_rows(rows, browser):
    """How many rows have changed, and the lines on them."""
    changed, lines = 0, []
    for row in rows:
        found = try_row(row, browser)
        changed += bool(found)
        lines.append(f"{'CHANGED' if found else 'as told':8} {row['row']} ({row['script']})")
        lines += [f"         {sentence}" for sentence in found]
    lines.append(f"{browser.version}: {len(rows) - changed} rows as told, {changed} changed")
    return changed, lines


def chosen_rows(words):
    rows = tomllib.loads((ROWS / "rows.toml").read_text(encoding="utf-8"))["rows"]
    return [row for row in rows
            if not words or any(word.lower() in f"{row['row']} {row['script']}".lower() for word in words)]


def play_one(script):
    """Plays a script on each browser, and lays each beside the program; the statuses."""
    told = on_each(lambda browser: ((browser.version, browser.page(PLAY).call("playPacked", packed(script))), []))
    statuses = []
    for version, text in told:
        print(f"\n{version}")
        statuses.append(compare.compare(script, text))
    return statuses


def on_one(work, kind, small_quota):
    """Does the work on a browser: its answer, None where it is not driven, and the lines on it."""
    try:
        browser = kind(small_quota)
    except NotDriven as problem:
        return None, [f"{kind.name} is not driven: {problem}"]
    try:
        return work(browser)
    finally:
        browser.close()


def on_each(work, small_quota=False):
    """Does the work on all installed browsers at the same time. Answers what each answered, and prints its lines."""
    answers = []
    with concurrent.futures.ThreadPoolExecutor() as pool:
        for answer, lines in pool.map(lambda kind: on_one(work, kind, small_quota), BROWSERS):
            print("".join(f"{line}\n" for line in lines), end="", flush=True)
            answers += [] if answer is None else [answer]
    return answers


def main(words):
    if words[:1] == ["--play"] and len(words) == 2:
        scripts.read(words[1])
        answers = play_one(words[1])
    elif any(word.startswith("-") for word in words):
        raise compare.NotCompared(__doc__.strip())
    else:
        rows = chosen_rows(words)
        if not rows:
            raise compare.NotCompared("no row has these words in it")
        scripts.program_path()
        answers = []
        for small_quota in (False, True):
            chosen = [row for row in rows if row.get("small_quota", False) == small_quota]
            if chosen:
                answers += on_each(lambda browser: try_rows(chosen, browser), small_quota)
    if not answers:
        return 2
    return 1 if any(answers) else 0


if __name__ == "__main__":
    try:
        sys.exit(main(sys.argv[1:]))
    except compare.NotCompared as problem:
        print(problem, file=sys.stderr)
        sys.exit(2)

"""Pages that use Media Source Extensions in fourteen ways, in each browser that is here: each is recorded, its
recordings are replayed, and every difference has its row in docs/BROWSERS.md, ROUNDS times in a row, or five times."""

import base64
import io
import os
import sys
import tempfile
import zipfile
from pathlib import Path

import kit

sys.path.insert(0, str(kit.CLIENTS))

import compare  # noqa: E402
import live  # noqa: E402
import scripts  # noqa: E402
from driven import browser, close, in_each_browser  # noqa: E402, F401

ROUNDS = int(os.environ.get("ROUNDS") or "5")
# How many recordings each page makes: one for each life of a source.
WAYS = {"chained": 1, "promises": 1, "types": 1, "timers": 1, "live": 1, "aborts": 1, "quota": 1, "broken": 1,
        "object": 1, "second": 4, "frame": 1, "early": 1, "seeks": 1, "windows": 1}
DONE = """async () => {
  let timer;
  const late = new Promise((_, fail) => { timer = setTimeout(() => fail(new Error("the page is not done")), 120000); });
  await Promise.race([done, late]);
  clearTimeout(timer);
  return record.list().length;
}"""
ARCHIVE = """async (number) => {
  const bytes = new Uint8Array(await record.archive(number).arrayBuffer());
  let text = "";
  for (const byte of bytes) text += String.fromCharCode(byte);
  return btoa(text);
}"""

def recordings(page):
    """The archives of what a page did."""
    count = page.call(DONE)
    return [base64.b64decode(page.call(ARCHIVE, number)) for number in range(count)]


def try_recording(archive, kind):
    """Replays an archive, and tells its differences without a row."""
    with tempfile.TemporaryDirectory() as folder:
        with zipfile.ZipFile(io.BytesIO(archive)) as files:
            files.extractall(folder)
        told = Path(folder, "browser.txt").read_text(encoding="utf-8")
        run, _, found = compare.compared_recording(scripts.read(Path(folder, "recording.toml"), folder), told)
    assert run.name == kind.name, run.name
    assert any(line.kind == "state" for line in run.browser), "the recording has no closing lines"
    lone = [compare.told(one) for one in found if not one.row]
    assert not lone, "\n".join(["differences without a row:", *lone, "what the browser did:", told])
    return len(found)


def check_page(kind, way):
    kit.program()
    try:
        live.engine()
    except live.NoEngine as missing:
        raise kit.Skip(str(missing)) from missing
    opened = browser(kind, way == "quota")
    counts = []
    for _ in range(ROUNDS):
        with kit.serve(kit.REPOSITORY) as front:
            archives = recordings(opened.page(f"{front}/clients/tests/pages/ways.html?{way}"))
            opened.leave()
        assert len(archives) == WAYS[way], f"{len(archives)} recordings"
        counts.append(sum(try_recording(archive, kind) for archive in archives))
    return f"{opened.version}, differences with a row: {', '.join(map(str, counts))}"


globals().update(in_each_browser(check_page, list(WAYS)))

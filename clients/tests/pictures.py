#!/usr/bin/env python3
"""Writes the pictures of docs/pictures/ anew: mseplay.html over each of the five ways in."""

import sys
import tempfile
from pathlib import Path

sys.dont_write_bytecode = True

import kit
import media_files
from test_page_media import open_media
from test_page_script import open_script
from test_page_text import VIEW, show

PICTURES = kit.REPOSITORY / "docs" / "pictures"


def a_file(page, _):
    open_media(page, kit.EXAMPLES / "gap.mp4")


def files_of_a_packager(page, folder):
    """One segment of the pictures is missing."""
    paths = [path for path in media_files.packager(folder) if path.name != "seg-video-7.m4s"]
    open_media(page, *paths, name=f"{len(paths) - 1} files")
    page.evaluate("document.querySelector('#odd').click()")


def a_script(page, _):
    open_script(page, kit.EXAMPLES / "stall.toml", kit.EXAMPLES / "gap.mp4")


def a_recording(page, folder):
    open_script(page, media_files.recording(folder))
    page.evaluate("document.querySelector('#editor-close').click()")


def a_text(page, _):
    show(page, kit.EXAMPLES / "feed.txt")


ALL = [("page-file.png", a_file, 730), ("page-packager.png", files_of_a_packager, 700), ("page-script.png", a_script, 860),
       ("page-recording.png", a_recording, 700), ("page-text.png", a_text, 640)]


def main():
    PICTURES.mkdir(exist_ok=True)
    page = kit.open_page(VIEW, width=1200)
    page.media(scheme="light")
    for name, way, height in ALL:
        page.size(1200, height)
        page.go(VIEW)
        with tempfile.TemporaryDirectory() as folder:
            way(page, Path(folder))
            page.evaluate("document.activeElement.blur(); scrollTo(0, 0); new Promise(done => setTimeout(done, 400))")
            data = page.screenshot(PICTURES / name)
        print(f"{name}: {len(data)} bytes")
    kit.close_all()


if __name__ == "__main__":
    main()

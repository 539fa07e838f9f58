"""mseplay.html is that of its sources, and its pictures are in the documents."""

import re
import subprocess
import sys

import kit

PAGE = kit.CLIENTS / "page"


def test_page_is_fresh():
    """build.py makes just the page that stands there."""
    done = subprocess.run([sys.executable, str(PAGE / "build.py"), "--check"], capture_output=True, text=True)
    assert done.returncode == 0, done.stdout + done.stderr
    return f"{(kit.CLIENTS / 'mseplay.html').stat().st_size:,} bytes"


def test_sources_are_a_small_program():
    """Modules of less than 800 lines, with functions of at most 40."""
    for path in [*PAGE.glob("src/*.mjs"), *(kit.REPOSITORY / "js/src/inspect").glob("*.mjs")]:
        lines = path.read_text().splitlines()
        assert len(lines) < 800, path
        start = None
        for number, line in enumerate(lines):
            if re.match(r"(export )?(async )?function|(export )?class", line):
                start = number if "function" in line else None
            if line == "}" and start is not None:
                assert number - start < 40, f"{path.name}: {lines[start]} has {number - start + 1} lines"
                start = None


def test_pictures_of_the_documents():
    """The five pictures are there, in the guide, and not large; the first stands at the top of the README."""
    guide, readme = ((kit.REPOSITORY / path).read_text() for path in ("docs/GUIDE.md", "README.md"))
    pictures = sorted((kit.REPOSITORY / "docs/pictures").glob("page-*.png"))
    assert len(pictures) == 5, pictures
    for path in pictures:
        data = path.read_bytes()
        assert data[:8] == b"\x89PNG\r\n\x1a\n" and len(data) < 200_000, f"{path.name} has {len(data)} bytes"
        assert f"(pictures/{path.name})" in guide, f"docs/GUIDE.md does not show {path.name}"
    assert readme.index("(docs/pictures/page-file.png)") < readme.index("## A first look")

"""Scripts, their files, and the program that plays them."""
import os
import subprocess
import tempfile
import tomllib
from dataclasses import dataclass
from pathlib import Path

TOP = Path(__file__).resolve().parent.parent
# Where the program is looked for: proved, else unproved.
BUILT = [TOP / "crates/mseplay/out/mseplay", TOP / "mseplay-unproved"]


class NotPlayed(Exception):
    """A script, a file or the program is not there; the text says which."""


def program_path():
    named = os.environ.get("MSEPLAY")
    path = Path(named) if named else next(filter(Path.is_file, BUILT), BUILT[0])
    if not path.is_file():
        raise NotPlayed(f"no program at {path}: build it with `rt run` in crates/mseplay or by bench/unproved.py, "
                        "or give its path in MSEPLAY")
    return str(path.resolve())


@dataclass
class Script:
    path: Path
    text: str
    values: dict
    # where each file that it names was found
    files: dict
    # a sentence on each, where the script is not in the folder of the call
    took: list

    def blobs(self):
        """The bytes of its blobs."""
        return [bytes.fromhex(text[4:]) if text.startswith("hex ") else self.files[text[5:]].read_bytes()
                for text in self.values.get("blobs", [])]


def file_names(values):
    blobs = values.get("blobs", [])
    texts = [blob for blob in blobs if isinstance(blob, str)] if isinstance(blobs, list) else []
    return [text[5:] for text in texts if text.startswith("file ") and len(text) > 5]


def read(path, folder=None):
    """A script with its files: those in the folder, which is that of the call, and else those beside the script. What
    is no TOML has none, and the program says what is wrong with it."""
    path, folder = Path(path).resolve(), Path(folder or Path.cwd()).resolve()
    if not path.is_file():
        raise NotPlayed(f"no script at {path}")
    text = path.read_text(encoding="utf-8", errors="replace")
    try:
        values = tomllib.loads(text)
    except tomllib.TOMLDecodeError:
        values = {}
    files, took = {}, []
    for name in file_names(values):
        found = next((place / name for place in (folder, path.parent) if (place / name).is_file()), None)
        if found is None:
            raise NotPlayed(f"no file {name}, neither in {folder} nor beside the script in {path.parent}")
        if name not in files and folder != path.parent and not Path(name).is_absolute():
            where = "of this folder" if found.parent == (folder / name).parent else "beside the script"
            took.append(f"{name} is that {where}: {found}")
        files[name] = found
    return Script(path, text, values, files, took)


def of_text(text, files):
    """A Script of a text, whose files are known by their names."""
    return Script(Path("replayed.toml"), text, tomllib.loads(text), files, [])


# How many folders above its own a name may lead to, as `../../plain.mp4` does to two.
DEPTH = 8


def beside(script, top):
    """A folder below `top` in which the script and its files stand under their names, and the name of the script."""
    folder = Path(top, *"abcdefgh"[:DEPTH])
    folder.mkdir(parents=True)
    for name, found in script.files.items():
        place = folder / name
        if not place.exists():
            place.parent.mkdir(parents=True, exist_ok=True)
            place.symlink_to(found.resolve())
    Path(folder, script.path.name).write_text(script.text, encoding="utf-8")
    return folder


def printed(script):
    """What the program prints of a Script."""
    with tempfile.TemporaryDirectory() as top:
        folder = beside(script, top)
        done = subprocess.run([program_path(), "play", script.path.name], cwd=folder, capture_output=True)
    text = done.stdout.decode("utf-8", "replace")
    if done.returncode not in (0, 6, 7):
        raise NotPlayed(f"mseplay ends with status {done.returncode} on {script.path}: {text.strip() or 'no line'}")
    return text

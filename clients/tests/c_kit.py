"""What the tests of the static library share."""

import subprocess
import sys
from pathlib import Path

import kit

C = kit.CLIENTS / "c"
sys.path.insert(0, str(C))

import mseplay  # noqa: E402

READ, HEAP, COUNTED_HEAP = C / "read.c", C / "heap.c", kit.TESTS / "heap_counted.c"
SANITIZERS = ["-g", "-fsanitize=address,undefined", "-fno-sanitize-recover=all"]


def archive_and_compiler():
    """The library and a C compiler, or a skip that says which is missing."""
    try:
        return mseplay.archive(), mseplay.compiler()
    except FileNotFoundError as error:
        raise kit.Skip(str(error)) from error


def build(path, *sources, compiler=None, standard="c99", flags=()):
    """Makes a program in C of the sources and the library at a path, without a warning."""
    archive, found = archive_and_compiler()
    subprocess.run([compiler or found, f"-std={standard}", "-Wall", "-Wextra", "-Werror", "-O2", *flags, "-I", C,
                    "-o", path, *sources, archive, "-lpthread"], check=True)
    return path


def sanitizing(name, package):
    """The path of a compiler with sanitizers, or a skip."""
    compiler = kit.tool(name, package=package)
    tried = subprocess.run([compiler, *SANITIZERS, "-x", "c", "-", "-o", "/dev/null"],
                           input=b"int main(void) { return 0; }", capture_output=True)
    if tried.returncode != 0:
        raise kit.Skip(f"{name} has no sanitizers here: those of clang are in the Debian package libclang-rt-dev")
    return compiler


def by_program(words, folder=kit.EXAMPLES):
    """What the program does: its status, and what it prints."""
    done = subprocess.run([kit.program(), *words], cwd=folder, stdout=subprocess.PIPE, timeout=120)
    return done.returncode, done.stdout


def write_script(path, steps, blobs, **keys):
    """Writes a script."""
    def text(items):
        return "[" + ", ".join(f"'{item}'" for item in items) + "]"
    settings = "".join(f"{key} = {value}\n" for key, value in keys.items())
    Path(path).write_text(f"{settings}blobs = {text(blobs)}\nsteps = {text(steps)}\n")

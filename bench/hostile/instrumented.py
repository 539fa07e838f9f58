#!/usr/bin/env python3
"""Builds the static library with clang's address sanitizer and its counts of coverage inside, unproved, in some five minutes.

    bench/hostile/instrumented.py ARCHIVE [MODULE]

The code is that of bench/unproved.py, with two differences: a check of `rt try` that fails stops the program, and each
access to memory is looked at. So `MSEPLAY_C=ARCHIVE bench/hostile.py` finds what goes wrong inside the library too, and
bench/hostile/guided.py is guided by what it runs through. A program that takes it is linked by clang with
-fsanitize=address. MODULE is a module that `rt try` compiled; else `rt try` makes it, which needs Rattle's `rt`.
"""
import os
import subprocess
import sys
import tempfile

HERE = os.path.dirname(os.path.abspath(__file__))
sys.path.insert(0, os.path.dirname(HERE))

import unproved  # noqa: E402

ATTRIBUTE, KEPT = "sanitize_address ", '"kept-for-a-while" '
TRAP = "  call void @llvm.trap()\n  unreachable\n"
FLAGS = ["-O1", "-fPIC", "-ffunction-sections", "-fsanitize=address,fuzzer-no-link"]


def text_of(module, clang, folder):
    path = os.path.join(folder, "module.ll")
    subprocess.run([*clang, module, "-S", "-emit-llvm", "-Xclang", "-disable-llvm-passes", "-o", path], check=True)
    with open(path, encoding="utf-8") as file:
        return file.read()


def changed(text):
    """The module with the functions for C, whose checks stop the program."""
    unproved.UNREACHABLE = unproved.UNREACHABLE.replace("  unreachable\n", TRAP)
    text = unproved.without_checks(text.replace(ATTRIBUTE, KEPT)).replace(KEPT, ATTRIBUTE)
    if "declare void @llvm.trap()" not in text:
        text += "\ndeclare void @llvm.trap()\n"
    return unproved.with_exports(text)


def build(archive, module, folder):
    kit = os.path.dirname(subprocess.run(["rt", "doc"], capture_output=True, text=True, check=True).stdout.strip())
    clang = [f"{kit}/toolchain/bin/clang", f"--target={unproved.TARGET}", f"--sysroot={kit}/toolchain", "-march=x86-64",
             "-Wno-everything", "-x", "ir"]
    text, code = os.path.join(folder, "changed.ll"), os.path.join(folder, "library.o")
    bare = changed(text_of(module, clang, folder))
    with open(text, "w", encoding="utf-8") as file:
        file.write(bare)
    subprocess.run([*clang, "-c", text, "-o", code, *FLAGS], check=True)
    if os.path.exists(archive):
        os.remove(archive)
    subprocess.run(["ar", "rcs", archive, code], check=True)


def main():
    if len(sys.argv) not in (2, 3):
        sys.exit(__doc__.strip())
    archive = os.path.abspath(sys.argv[1])
    with tempfile.TemporaryDirectory() as room, tempfile.TemporaryDirectory() as folder:
        module = sys.argv[2] if len(sys.argv) == 3 else unproved.module_of_try("mseplay_c", ["--test"], room, folder)
        build(archive, module, folder)
    print(f"{archive}: built with its sanitizer, and unproved")


if __name__ == "__main__":
    main()

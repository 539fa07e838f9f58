#!/usr/bin/env python3
"""Measures the memory that stands while source buffers have open segments; not part of the gate.

    bench/memory.py [PROGRAM] [QUOTA]

PROGRAM is crates/mseplay/out/mseplay, as `rt run` leaves it in crates/mseplay. QUOTA is in MiB, 128 if left out, which is the
default of a script. The file that is appended has twice the quota, and the buffers share its memory.

Each buffer gets frames up to a byte below its quota, and then all but the last byte of a media segment of as many bytes:
once in appends of a million bytes, and once in one append. A third run appends a box that is passed over, of twice the
quota, and half a header behind it. The script ends with more lines than a pipe takes, and while the program waits for this
one to read them, the memory that it has is read. Linux alone.
"""
import os
import subprocess
import sys
import tempfile
import time

from make import box, segment

HERE = os.path.dirname(os.path.abspath(__file__))
FRAME = 1 << 16
MIB = 1 << 20


def main():
    program = os.path.abspath(sys.argv[1] if len(sys.argv) > 1 else os.path.join(HERE, "../crates/mseplay/out/mseplay"))
    quota = (int(sys.argv[2]) if len(sys.argv) > 2 else 128) * MIB
    with tempfile.TemporaryDirectory() as room:
        file = os.path.join(room, "file.mp4")
        full(file, quota)
        for count in [1, 16]:
            for part in [1000000, os.path.getsize(file)]:
                show(program, room, quota, count, part, "full buffers")
        with open(file, "wb") as out:
            out.write(box(b"free", bytes(2 * quota - 8)) + bytes(4))
        show(program, room, quota, 1, os.path.getsize(file), "half a header behind a box")


def full(file, quota):
    """Frames of a byte less than the quota, and all but the last byte of a segment."""
    with open(os.path.join(HERE, "..", "crates", "case_runs", "data", "plain.mp4"), "rb") as plain, open(file, "wb") as out:
        out.write(plain.read()[:595])
        sizes = [FRAME] * (quota // FRAME - 1) + [FRAME - 1]
        for at in range(0, len(sizes), 100):
            out.write(segment(at, sizes[at:at + 100]))
        head = len(segment(len(sizes), [0]))
        out.write(segment(len(sizes), [quota - head])[:-1])


def show(program, room, quota, count, part, what):
    size = os.path.getsize(os.path.join(room, "file.mp4"))
    steps = ["attach"] + ["add video/mp4"] * count
    for number in range(count):
        for at in range(0, size, part):
            steps += [f"append {number} 0 {at} {min(part, size - at)}", "drain"]
    steps += ["state"] * 2000
    with open(os.path.join(room, "script.toml"), "w") as out:
        lines = ", ".join(f'"{step}"' for step in steps)
        out.write(f'quota = {quota}\nblobs = ["file file.mp4"]\nsteps = [{lines}]\n')
    stands = memory([program, "play", "script.toml"], room) - size
    print(f"{what}, quota {quota // MIB} MiB, {count} buffers, appends of at most {part} bytes: {stands / MIB:.1f} MiB beside the "
          f"file, {stands / count / quota:.3f} times the quota for each buffer", flush=True)


def memory(words, room):
    """The memory that a program has when it has printed its first state, in bytes."""
    child = subprocess.Popen(words, cwd=room, stdout=subprocess.PIPE, bufsize=0)
    text = b""
    while b"call state" not in text:
        read = child.stdout.read(4096)
        if not read:
            sys.exit("the program ended early")
        text = (text + read)[-8192:]
    time.sleep(1)
    with open(f"/proc/{child.pid}/status") as status:
        found = next(int(line.split()[1]) for line in status if line.startswith("VmRSS:"))
    child.stdout.read()
    while child.stdout.read(1 << 20):
        pass
    child.wait()
    return 1024 * found


main()

#!/usr/bin/env python3
"""Puts seconds behind the ticks of what the program printed.

    seconds.py [FILE]

It reads the file, or standard input, and prints each line with the seconds of each time in round brackets behind it: what
was rounded to microseconds has `~` before it. A second has 141,120,000,000 ticks. Numbers that are no times (bytes, frames,
offsets, numbers of buffers) stay as they are.
"""
import re
import sys

SECOND = 141_120_000_000
MICROSECOND = SECOND // 1_000_000
TICKS = r"-?\d+"
# A range, `[A,B)` or `[A,B]`, and the words that a time stands behind.
RANGE = re.compile(rf"\[({TICKS}),({TICKS})([)\]])")
NAMED = re.compile(rf"\b(duration|position|pts|dts|dur) ({TICKS})\b")
FEED = re.compile(rf"^(feed \d+ \d+ at) ({TICKS})\b")
# Which words of a call line are times, by the word that it begins with.
TIMES_OF_CALL = {
    "duration": (1,),
    "live": (1, 2),
    "offset": (2,),
    "windowstart": (2,),
    "windowend": (2,),
    "remove": (2, 3),
    "seek": (1,),
    "advance": (1,),
}
CALL = re.compile(r"^(call|listener \d+) (.*?)(: .*)?$", re.S)


def seconds(ticks):
    whole, rest = divmod(abs(ticks), MICROSECOND)
    text = f"{whole // 1_000_000}.{whole % 1_000_000:06d}".rstrip("0").rstrip(".")
    return f"({'~' if rest else ''}{'-' if ticks < 0 else ''}{text} s)"


def with_seconds(text):
    return f"{text} {seconds(int(text))}"


def call_line(line):
    words = line.split(" ")
    for place in TIMES_OF_CALL.get(words[0], ()):
        if place < len(words) and re.fullmatch(TICKS, words[place]):
            words[place] = with_seconds(words[place])
    return " ".join(words)


def plain(text):
    text = RANGE.sub(lambda found: f"[{with_seconds(found[1])}, {with_seconds(found[2])}{found[3]}", text)
    return NAMED.sub(lambda found: f"{found[1]} {with_seconds(found[2])}", text)


def converted(line):
    call = CALL.match(line)
    if call:
        return f"{call[1]} {call_line(call[2])}{plain(call[3] or '')}"
    line = FEED.sub(lambda found: f"{found[1]} {with_seconds(found[2])}", line)
    return plain(line)


def main():
    if len(sys.argv) > 2:
        sys.exit(__doc__.strip())
    try:
        source = open(sys.argv[1], encoding="utf-8", errors="replace") if len(sys.argv) == 2 else sys.stdin
        for line in source:
            print(converted(line.rstrip("\n")))
    except BrokenPipeError:
        pass
    except OSError as error:
        sys.exit(f"seconds.py: {error}")


if __name__ == "__main__":
    main()

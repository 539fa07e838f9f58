#!/usr/bin/env python3
"""Draws the pictures of docs/ that are no pictures of the page: `draw.py` writes them anew, `draw.py --check` says which are stale.

Each is an SVG, light or dark as its reader's system is. What they say of files and steps is printed in docs/GUIDE.md.
"""
import os
import sys
from html import escape

HERE = os.path.dirname(os.path.abspath(__file__))
STYLE = """
  text { font: 13px system-ui, sans-serif; fill: #1f2328 }
  .small { font-size: 12px; fill: #57606a }
  .code { font-family: ui-monospace, monospace; font-size: 12px }
  .bold { font-weight: 600 }
  rect { fill: #f3f4f6; stroke: #8c959f; rx: 4px }
  .held { fill: #dbeafe; stroke: #2563eb }
  .event { fill: #dcfce7; stroke: #15803d }
  .work { fill: #fef3c7; stroke: #b45309 }
  .gone { fill: #fee2e2; stroke: #dc2626; stroke-dasharray: 4 3 }
  line, path { stroke: #57606a; fill: none }
  .mark { stroke: #cf222e; stroke-width: 2 }
  .faint { stroke: #d0d7de }
  @media (prefers-color-scheme: dark) {
    text { fill: #e6edf3 }
    .small { fill: #9198a1 }
    rect { fill: #262c36; stroke: #656c76 }
    .held { fill: #1c3557; stroke: #58a6ff }
    .event { fill: #163a26; stroke: #3fb950 }
    .work { fill: #45330f; stroke: #d29922 }
    .gone { fill: #4a1d20; stroke: #f85149 }
    line, path { stroke: #9198a1 }
    .mark { stroke: #ff7b72 }
    .faint { stroke: #3d444d }
  }
"""


class Picture:
    def __init__(self, width, height, title):
        self.head = (f'<svg xmlns="http://www.w3.org/2000/svg" viewBox="0 0 {width} {height}" width="{width}" '
                     f'height="{height}" role="img">\n<title>{escape(title)}</title>\n<style>{STYLE}</style>\n'
                     '<defs><marker id="tip" viewBox="0 0 8 8" refX="7" refY="4" markerWidth="7" markerHeight="7" '
                     'orient="auto-start-reverse"><path d="M 0 0 L 8 4 L 0 8"/></marker></defs>')
        self.parts = []

    def text(self, x, y, words, kind="", anchor="start"):
        self.parts.append(f'<text x="{x:g}" y="{y:g}" class="{kind}" text-anchor="{anchor}">{escape(words)}</text>')

    def box(self, x, y, width, height, kind="", words="", word_kind=""):
        self.parts.append(f'<rect x="{x:g}" y="{y:g}" width="{width:g}" height="{height:g}" class="{kind}"/>')
        rows = words.split("\n") if words else []
        for at, row in enumerate(rows):
            self.text(x + width / 2, y + height / 2 + 4.5 + 15 * (at - (len(rows) - 1) / 2), row, word_kind, "middle")

    def line(self, x1, y1, x2, y2, kind="", tip=False):
        end = ' marker-end="url(#tip)"' if tip else ""
        self.parts.append(f'<line x1="{x1:g}" y1="{y1:g}" x2="{x2:g}" y2="{y2:g}" class="{kind}"{end}/>')

    def svg(self):
        return "\n".join([self.head, *self.parts, "</svg>\n"])


def tools():
    picture = Picture(760, 292, "Which tool leads from what you have to the engine, and what comes back")
    rows = [("files of a packager", "mseplay.html, inspect"), ("a player's tests", "js/: MediaSource, <video>"),
            ("a page with a bug", "record.js, then compare.py"), ("an order of calls", "a script, by play"),
            ("a program of your own", "a call, or a session")]
    for x, words in [(20, "you have"), (232, "you take"), (616, "you get")]:
        picture.text(x, 24, words, "small")
    for at, (have, take) in enumerate(rows):
        y = 38 + 50 * at
        picture.box(20, y, 168, 38, "", have)
        picture.line(188, y + 19, 230, y + 19, tip=True)
        picture.box(232, y, 226, 38, "event", take)
        picture.line(458, y + 19, 496, 157 + 8 * (at - 2), tip=True)
    picture.box(498, 112, 84, 90, "held", "the engine", "bold")
    picture.line(582, 157, 614, 157, tip=True)
    for at, words in enumerate(["each answer", "each event", "ranges, to the tick", "the first fault", "why, in words"]):
        picture.text(620, 118 + 22 * at, words)
    return picture


def append():
    picture = Picture(880, 250, "The second append of pieces.toml, step by step")
    steps = [("call", "append", "", "updatestart", "yes", "nothing"),
             ("fire", "updatestart", "event", "", "yes", "nothing"),
             ("work", "frame 1", "work", "loadeddata\ncanplay", "yes", "1 frame"),
             ("fire", "loadeddata", "event", "canplay", "yes", "1 frame"),
             ("fire", "canplay", "event", "", "yes", "1 frame"),
             ("work x 3", "frame 2, 3,\nend", "work", "", "yes", "3 frames"),
             ("work", "no item left", "work", "update\nupdateend", "no", "3 frames"),
             ("fire", "update", "event", "updateend", "no", "3 frames"),
             ("fire", "updateend", "event", "", "no", "3 frames")]
    for y, words in [(76, "step"), (136, "the queue"), (184, "updating"), (214, "buffered")]:
        picture.text(8, y, words, "small")
    for at, (head, words, kind, queue, updating, held) in enumerate(steps):
        x = 72 + 90 * at
        picture.text(x + 42, 48, head, "code", "middle")
        picture.box(x, 56, 84, 36, kind, words)
        for row, event in enumerate(queue.split("\n") if queue else ["empty"]):
            picture.text(x + 42, 129 + 16 * row, event, "" if queue else "small", "middle")
        picture.text(x + 42, 184, updating, "" if updating == "yes" else "small", "middle")
        picture.text(x + 42, 214, held, "" if held != "nothing" else "small", "middle")
    picture.line(8, 108, 872, 108, "faint")
    picture.line(8, 160, 872, 160, "faint")
    picture.line(162, 26, 872, 26)
    picture.line(162, 22, 162, 30)
    picture.line(872, 22, 872, 30)
    picture.text(517, 18, "drain does all of these; fire, work 0 and element do one", "small", "middle")
    picture.text(8, 240, "Behind each step: what waits in the queue of events, and what a page reads. The third item of work x 3 is the end of the media segment.", "small")
    return picture


def quota():
    picture = Picture(760, 236, "Which groups of frames go when a full buffer is appended to")
    rows = [("here", ["1", "2", "", "5", "4", "3"], "as many as the append needs, in this order"),
            ("Chromium", ["1", "2", "", None, None, None], "what lies behind the position; else it is refused"),
            ("Firefox", [None, None, "", None, None, None], "in the case that was measured nothing: it is refused")]
    picture.text(130, 24, "six groups of frames, and the position in the third", "small")
    for at, (name, groups, words) in enumerate(rows):
        y = 44 + 58 * at
        picture.text(8, y + 22, name, "bold")
        for place, order in enumerate(groups):
            picture.box(130 + 44 * place, y, 40, 34, "gone" if order else "held", order or "")
        picture.text(408, y + 22, words)
    picture.line(240, 32, 240, 204, "mark")
    picture.text(240, 222, "position", "small", "middle")
    return picture


def edits():
    picture = Picture(800, 300, "Where the frames of four files lie, beside the time 0")
    zero, frame = 400, 44
    rows = [("late.mp4", "pictures without an edit list", 1.0, 5, 0, "begins at 0.08 s"),
            ("groups.mp4", "its edit list takes 0.08 s off", 0.0, 5, 0, "begins at 0"),
            ("priming.mp4", "the edit list begins within a frame", -0.35, 4, 1, "begins at 0.0135 s"),
            ("empty-edit.mp4", "an empty edit of half a second", 2.4, 3, 0, "begins at 0.5 s")]
    for at, (name, why, start, count, dropped, words) in enumerate(rows):
        y = 40 + 60 * at
        picture.text(8, y + 13, name, "code bold")
        picture.text(8, y + 31, why, "small")
        picture.line(330, y + 38, 792, y + 38, "faint")
        for place in range(count):
            x = zero + frame * (start + place)
            picture.box(x + 1, y, frame - 2, 34, "gone" if place < dropped else "held")
        picture.text(792, y + 22, words, "", "end")
    picture.line(zero, 26, zero, 272, "mark")
    picture.text(zero, 20, "0", "bold", "middle")
    picture.text(zero, 290, "A frame that begins before 0 is dropped. Not to scale.", "small", "middle")
    return picture


PICTURES = {"tools.svg": tools, "append.svg": append, "quota.svg": quota, "edits.svg": edits}


def main():
    stale = []
    for name, draw in PICTURES.items():
        path, text = os.path.join(HERE, name), draw().svg()
        if "--check" in sys.argv:
            if not os.path.exists(path) or open(path, encoding="utf-8").read() != text:
                stale.append(name)
        else:
            with open(path, "w", encoding="utf-8") as out:
                out.write(text)
    for name in stale:
        print(f"{name} is stale: call docs/pictures/draw.py")
    return 1 if stale else 0


if __name__ == "__main__":
    sys.exit(main())

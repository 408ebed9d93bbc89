#!/usr/bin/env python3
"""Makes docs/pictures/NAME.svg of each dev/pictures/NAME.txt.

    python3 dev/make_pictures.py [--check]

A text has these lines, and comments after `#`; numbers are pixels:

    size WIDTH HEIGHT
    box NAME X Y WIDTH HEIGHT KIND TEXT     KIND is proved, tested, trusted or plain; `|` in TEXT begins a line
    arrow NAME NAME [TEXT]                  from the side of a box to the facing side of another
    text X Y TEXT                           a line of text that begins there
    bars X Y WIDTH FILE                     bars of the times in a file: see bench/measured.txt

The pictures follow the reader's light or dark colours. --check makes nothing: its status is 1 if one differs. The gate
compares them, too (`tests/pages/pictures.py`)."""

import argparse
import pathlib
import sys
from xml.sax.saxutils import escape

TOP = pathlib.Path(__file__).resolve().parent.parent
TEXTS, PICTURES = TOP / "dev" / "pictures", TOP / "docs" / "pictures"
COMMAND = "python3 dev/make_pictures.py"
# The colours of fills and lines, light and dark.
KINDS = {
    "proved": ("#dafbe1", "#1a7f37", "#12361d", "#3fb950"), "tested": ("#ddf4ff", "#0969da", "#0c2d4f", "#58a6ff"),
    "trusted": ("#fff8c5", "#9a6700", "#3d2e00", "#d29922"), "plain": ("#f6f8fa", "#57606a", "#21262d", "#8b949e"),
}
INK, DARK_INK, LINE, SIZE, LETTER = "#1f2328", "#e6edf3", 17, 13, 7
# The bars of one request, in this order, each with the kind of its colour.
BARS, BAR, GAP = (("kdcd", "proved"), ("MIT", "tested"), ("Heimdal", "trusted")), 15, 10


def style():
    rules = [
        f"text{{font:{SIZE}px system-ui,sans-serif;fill:{INK}}}", f".a{{stroke:{INK};fill:none}}", f".h{{fill:{INK}}}",
        *(f".{kind}{{fill:{fill};stroke:{line}}}" for kind, (fill, line, *_) in KINDS.items()),
        f"@media(prefers-color-scheme:dark){{text,.h{{fill:{DARK_INK}}}.a{{stroke:{DARK_INK}}}",
        *(f".{kind}{{fill:{fill};stroke:{line}}}" for kind, (*_, fill, line) in KINDS.items()), "}",
    ]
    return "".join(rules)


class Picture:
    """A picture as it is drawn: the places of its boxes, and its shapes."""

    def __init__(self):
        self.width = self.height = 0
        self.boxes, self.shapes = {}, []

    def draw(self, text):
        for line in text.splitlines():
            line = line.partition("#")[0].strip()
            if line:
                word, *words = line.split()
                getattr(self, word)(*words)
        return (
            f'<svg xmlns="http://www.w3.org/2000/svg" viewBox="0 0 {self.width} {self.height}" width="{self.width}">\n'
            f"<style>{style()}</style>\n"
            '<defs><marker id="m" viewBox="0 0 8 8" refX="7" refY="4" markerWidth="8" markerHeight="8" orient="auto">'
            '<path class="h" d="M0 0L8 4L0 8z"/></marker></defs>\n' + "\n".join(self.shapes) + "\n</svg>\n"
        )

    def size(self, width, height):
        self.width, self.height = int(width), int(height)

    def box(self, name, x, y, width, height, kind, *words):
        x, y, width, height = map(int, (x, y, width, height))
        self.boxes[name] = (x, y, width, height)
        self.shapes.append(f'<rect class="{kind}" x="{x}" y="{y}" width="{width}" height="{height}" rx="6"/>')
        lines = [line.strip() for line in " ".join(words).split("|")]
        first = y + (height - LINE * len(lines)) // 2 + SIZE
        for at, line in enumerate(lines):
            self.write(x + width // 2, first + at * LINE, line, "middle")

    def write(self, x, y, line, anchor="start"):
        self.shapes.append(f'<text x="{x}" y="{y}" text-anchor="{anchor}">{escape(line)}</text>')

    def text(self, x, y, *words):
        self.write(int(x), int(y), " ".join(words))

    def arrow(self, start, end, *words):
        (x, y, across, down), (x2, y2, across2, down2) = self.boxes[start], self.boxes[end]
        if x + across <= x2 or x2 + across2 <= x:
            is_right = x + across <= x2
            begin = (x + across * is_right, y + down // 2)
            finish = (x2 + across2 * (not is_right), y2 + down2 // 2)
            place = ((begin[0] + finish[0]) // 2, min(begin[1], finish[1]) - 6)
        else:
            is_down = y + down <= y2
            middle = (max(x, x2) + min(x + across, x2 + across2)) // 2
            begin, finish = (middle, y + down * is_down), (middle, y2 + down2 * (not is_down))
            place = (middle + 6, (begin[1] + finish[1]) // 2 + 5)
        self.shapes.append(
            f'<path class="a" marker-end="url(#m)" d="M{begin[0]} {begin[1]}L{finish[0]} {finish[1]}"/>'
        )
        if words:
            self.write(*place, " ".join(words), "middle" if begin[1] == finish[1] else "start")

    def bars(self, x, y, width, file):
        x, y, width = int(x), int(y), int(width)
        rows = measured(TOP / file)
        most = max(max(times) for _, times in rows)
        for request, times in rows:
            self.write(x, y + SIZE, request)
            y += LINE + 3
            for (name, kind), time in zip(BARS, times):
                long = max(2, round(width * time / most))
                self.shapes.append(f'<rect class="{kind}" x="{x}" y="{y}" width="{long}" height="{BAR - 3}"/>')
                self.write(x + long + 8, y + BAR - 4, f"{name}: {time:.0f} µs")
                y += BAR
            y += GAP


def measured(file):
    """The requests of a file of times, each with the times of the KDCs: ours is the sum of its three numbers."""
    rows = []
    for line in file.read_text().splitlines():
        if line and not line.startswith("#"):
            request, *numbers = (cell.strip() for cell in line.split("|"))
            ours, log, journal, mit, heimdal = map(float, numbers)
            rows.append((request, (ours + log + journal, mit, heimdal)))
    return rows


def pictures():
    """The text of each picture, by its file."""
    return {PICTURES / f"{text.stem}.svg": Picture().draw(text.read_text()) for text in sorted(TEXTS.glob("*.txt"))}


def main():
    parser = argparse.ArgumentParser(description=__doc__, formatter_class=argparse.RawDescriptionHelpFormatter)
    parser.add_argument("--check", action="store_true")
    if parser.parse_args().check:
        sys.exit(any(not file.exists() or file.read_text() != text for file, text in pictures().items()))
    for file, text in pictures().items():
        file.write_text(text)


if __name__ == "__main__":
    main()

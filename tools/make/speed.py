#!/usr/bin/env python3
"""Draws docs/pictures/speed.svg of the table in docs/SPEED.md, or speed.svg in a FOLDER: tools/make/speed.py [FOLDER].

Each row of the table is a dot for each number of items, at the ratio of the times of bench and of NumPy, on a scale of powers
of two. Dots that would meet stand on one another."""
import math
import re
import sys
from pathlib import Path

TOP = Path(__file__).resolve().parents[2]
LOW, HIGH, OCTAVE, EACH = -5, 4, 76, 8  # the powers of two at both ends, the pixels of one, and of a dot
LEFT, ABOVE, BELOW = 18, 44, 14
STYLE = """svg{--ink:#1a1a1a;--dim:#5f5f5f;--line:#c8c8c8;--page:#fff;--ahead:#2f7d4f;--behind:#b4561c}
@media(prefers-color-scheme:dark){svg{--ink:#eee;--dim:#aaa;--line:#444;--page:#16181d;--ahead:#6cc08d;--behind:#f0945a}}
text{font:12px ui-monospace,Menlo,Consolas,monospace;fill:var(--ink)}.dim{fill:var(--dim)}.head{font-weight:bold}
.page{fill:var(--page)}path{stroke:var(--line)}.even{stroke:var(--ink)}.ahead{fill:var(--ahead)}.behind{fill:var(--behind)}"""


def ratios(page):
    """The sizes of the table, as it writes them, each with the ratios of all rows."""
    head, *rows = [line.split(" | ") for line in re.findall(r"(?m)^\| ((?:Row|`).*) \|$", page)]
    sizes = [cell.split(":")[0].strip(" |") for cell in head[1::2]]
    return {size: [max(0.001, float(row[2 * k + 2].split()[0])) for row in rows if row[2 * k + 2].strip()] for k, size in enumerate(sizes)}


def across(ratio):
    return LEFT + (math.log2(ratio) - LOW) * OCTAVE


def stacks(found):
    """The dots of each place: the places of the scale are as far apart as a dot is wide."""
    held = {}
    for ratio in sorted(found):
        place = round((across(min(max(ratio, 2**LOW), 2**HIGH)) - LEFT) / EACH)
        held.setdefault(place, []).append(ratio)
    return held


def panel(size, found, top):
    """The dots of a size, below its head. Returns them and the height."""
    held = stacks(found)
    base = top + ABOVE + EACH * max(map(len, held.values()))
    mean = math.exp(sum(math.log(ratio) for ratio in found) / len(found))
    ahead = sum(ratio < 1 for ratio in found)
    told = f"geometric mean {mean:.2f}; bench takes less time in {ahead} of {len(found)} rows"
    lines = [f'<text x="{LEFT}" y="{top + 24}" class="head">{size} items</text><text x="{LEFT + 140}" y="{top + 24}" class="dim">{told}</text>']
    for power in range(LOW, HIGH + 1):
        even = ' class="even"' if power == 0 else ""
        lines.append(f'<path{even} d="M{across(2**power):.0f} {top + ABOVE - 8}V{base}"/>')
    for place, those in held.items():
        for k, ratio in enumerate(those):
            side = "ahead" if ratio < 1 else "behind"
            lines.append(f'<circle class="{side}" cx="{LEFT + place * EACH}" cy="{base - EACH // 2 - k * EACH}" r="{EACH / 2 - 0.5}"/>')
    return lines, base - top


def picture(page):
    """The panels of all sizes over one scale."""
    sizes, top, lines = ratios(page), 4, []
    for size, found in sizes.items():
        drawn, height = panel(size, found, top)
        lines += drawn
        top += height + BELOW
    for power in range(LOW, HIGH + 1):
        number = {LOW: "≤", HIGH: "≥"}.get(power, "") + (f"1/{2**-power}" if power < 0 else f"{2**power}")
        lines.append(f'<text x="{across(2**power):.0f}" y="{top + 6}" text-anchor="middle">{number}</text>')
    lines.append(f'<text x="{across(1) - 8:.0f}" y="{top + 26}" text-anchor="end" class="dim">bench takes less time</text>'
                 f'<text x="{across(1) + 8:.0f}" y="{top + 26}" class="dim">NumPy takes less time</text>')
    width, height = LEFT * 2 + (HIGH - LOW) * OCTAVE, top + 38
    title = f"The time of bench divided by that of NumPy, for {', '.join(sizes)} items"
    return (f'<svg xmlns="http://www.w3.org/2000/svg" viewBox="0 0 {width} {height}" width="{width}" height="{height}" role="img" aria-labelledby="title">'
            f'<title id="title">{title}</title>\n<style>{STYLE}</style><rect class="page" width="{width}" height="{height}"/>\n' + "\n".join(lines) + "\n</svg>\n")


def main(folder):
    (folder / "speed.svg").write_text(picture((TOP / "docs/SPEED.md").read_text()))


if __name__ == "__main__":
    main(Path(sys.argv[1]) if sys.argv[1:] else TOP / "docs/pictures")

"""Draws docs/layers.svg from crates.txt: a row for each layer, the highest on top, with the crates below its heading.

A heading of crates.txt is a line `## NAME: what is in the layer`. A crate uses crates of its own layer that come before it,
and crates of lower layers: a use that is none of these is refused. So no uses are drawn.
"""

import sys
from html import escape

from harness.command import Parser
from tools.made import add_check, make
from tools.source import TOP, crates

FILE = TOP / "docs" / "layers.svg"
WIDTH, MARGIN, COLUMNS = 960, 12, 6
BOX, HEIGHT, GAP = 144, 26, 8
HEAD, FOOT = 40, 10
STYLE = """
  text { font: 13px sans-serif; fill: #1b1b1b; dominant-baseline: central }
  .box { text-anchor: middle } .name { font-weight: bold } .note { fill: #555 }
  .layer { fill: #f6f6f6; stroke: none }
  .krb { fill: #dcecf7; stroke: #3a6ea5 } .chpw { fill: #fdf0d5; stroke: #a9741c } .other { fill: #fff; stroke: #999 }
"""


def layers():
    """Of each layer its name, what is in it, and its crates, in the order of crates.txt."""
    found = []
    for line in (TOP / "crates.txt").read_text().splitlines():
        if line.startswith("## "):
            name, _, note = line[3:].partition(": ")
            found.append((name, note, []))
        elif ":" in line and not line.startswith("#"):
            found[-1][2].append(line.partition(":")[0])
    return found


def upward():
    """Each use of a crate that comes later in crates.txt."""
    uses = crates()
    place = {name: index for index, name in enumerate(uses)}
    return [f"{name} uses {it}" for name in uses for it in uses[name] if place[it] > place[name]]


def kind(name):
    return next((it for it in ("krb", "chpw") if name.startswith(f"{it}_")), "other")


def box(name, index, top):
    """A crate in its column, and in the line that its number in the layer gives."""
    line, column = divmod(index, COLUMNS)
    x, y = 2 * MARGIN + column * (BOX + GAP), top + HEAD + line * (HEIGHT + GAP)
    return (
        f'<rect class="{kind(name)}" x="{x}" y="{y}" width="{BOX}" height="{HEIGHT}" rx="4"/>'
        f'<text class="box" x="{x + BOX // 2}" y="{y + HEIGHT // 2}">{escape(name)}</text>'
    )


def height_of(count):
    """The height of a layer with so many crates."""
    return HEAD + -(-count // COLUMNS) * (HEIGHT + GAP) + FOOT - GAP


def row(layer, top):
    """A layer's ground, its heading and its crates."""
    name, note, names = layer
    yield f'<rect class="layer" x="{MARGIN}" y="{top}" width="{WIDTH - 2 * MARGIN}" height="{height_of(len(names))}" rx="6"/>'
    heading = f'<tspan class="name">{escape(name)}</tspan><tspan class="note">: {escape(note)}</tspan>'
    yield f'<text x="{2 * MARGIN}" y="{top + HEAD // 2}">{heading}</text>'
    yield from (box(it, index, top) for index, it in enumerate(names))


def document():
    parts, top = [], MARGIN
    for layer in reversed(layers()):
        parts += row(layer, top)
        top += height_of(len(layer[2])) + GAP
    height = top - GAP + MARGIN
    head = (
        f'<svg xmlns="http://www.w3.org/2000/svg" viewBox="0 0 {WIDTH} {height}" role="img"'
        ' aria-label="The crates in layers">'
    )
    ground = f'<rect width="{WIDTH}" height="{height}" fill="#fff"/>'
    return "\n".join([head, f"<style>{STYLE}</style>", ground, *parts, "</svg>", ""])


def main():
    parser = Parser(__doc__, None, "a crate uses one of a higher layer, or, with --check, the file differs")
    add_check(parser, "whether the file differs")
    given = parser.parse_args()
    if wrong := upward():
        sys.exit(f"crates.txt: a crate uses one that comes later: {', '.join(wrong)}")
    make(FILE, document(), given.check, "docs/layers.svg differs from crates.txt: run python3 -m tools.picture")


if __name__ == "__main__":
    main()

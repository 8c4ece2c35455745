"""Draws docs/way.svg: the way of a new password from a workstation to the KDC's replicas, and what of it is proved.

With --check nothing is written; the status is 1 if the picture is another one than it would draw.
"""

import sys
from html import escape

from harness.command import Parser
from tools.source import TOP

FILE = TOP / "docs" / "way.svg"
WIDTH, HEIGHT = 960, 452
STYLE = """
  text { font: 13px sans-serif; fill: #1b1b1b }
  .title { font-weight: bold } .note { font-size: 12px; fill: #444 } .middle { text-anchor: middle }
  .proved { fill: #e1f0dc; stroke: #3f7f36 } .part { fill: #f4faf2; stroke: #3f7f36 }
  .tested { fill: #fdf0d5; stroke: #a9741c } .others { fill: #efefef; stroke: #8a8a8a }
  path { fill: none; stroke: #444; stroke-width: 1.5; marker-end: url(#head) }
  .both { marker-start: url(#tail) }
"""
# each with its place and size, its kind, and its lines, the first of which is its title
BOXES = (
    (12, 96, 164, 92, "others", ("Workstation", "kpasswd, kinit, PAM,", "sssd: MIT's, Heimdal's,", "as they are")),
    (322, 28, 328, 300, "proved", ("chpw_server serve",)),
    (336, 58, 300, 52, "part", ("Sockets, threads, files", "what is asked of the system, in which order")),
    (336, 120, 300, 52, "part", ("Messages", "tickets, seals, replies: one reading, one reply")),
    (336, 182, 300, 52, "part", ("Decision", "who may, policy, replays, old passwords")),
    (336, 244, 300, 70, "part", ("Journal, and what is said to the KDC", "a record is synced before its reply;", "only keys that the table held")),
    (336, 364, 300, 44, "others", ("Journal on the disk", "keys in the clear, of the service's user")),
    (742, 58, 196, 66, "tested", ("Agent, in C, as root", "kdc_mit or kdc_heimdal,", "beside the database")),
    (742, 170, 196, 52, "others", ("KDC's database", "also written by kadmin")),
    (742, 268, 196, 46, "others", ("KDC", "tickets under the new key")),
    (742, 362, 196, 46, "others", ("Replicas", "by kprop, iprop, ipropd")),
)
# each with its points, and whether it goes both ways
WAYS = (
    ("M176 142H322", True), ("M486 328V364", True), ("M650 91H742", True), ("M840 124V170", True), ("M840 222V268", False),
    ("M938 208H950V385H938", False), ("M742 291H690V432H94V188", False),
)
NOTES = (
    (249, 116, "TCP or UDP, port 464"), (249, 133, "RFC 3244"), (249, 160, "127.0.0.1 alone:"),
    (249, 176, "a forwarder for others"), (696, 82, "Unix socket"), (392, 426, "tickets, port 88"),
)
LEGEND = (
    ("proved", "proved: each function keeps its contract"), ("tested", "tested, not proved"),
    ("others", "others' programs, and what the system does"),
)


def box(x, y, wide, high, kind, lines):
    yield f'<rect class="{kind}" x="{x}" y="{y}" width="{wide}" height="{high}" rx="5"/>'
    for number, line in enumerate(lines):
        style = "note" if number else "title"
        yield f'<text class="{style}" x="{x + 10}" y="{y + 20 + 17 * number}">{escape(line)}</text>'


def legend():
    x = 12
    for kind, words in LEGEND:
        yield f'<rect class="{kind}" x="{x}" y="6" width="14" height="14" rx="3"/>'
        yield f'<text class="note" x="{x + 20}" y="17">{escape(words)}</text>'
        x += 48 + 6.2 * len(words)


def document():
    label = "The way of a new password from a workstation to the KDC's replicas"
    yield f'<svg xmlns="http://www.w3.org/2000/svg" viewBox="0 0 {WIDTH} {HEIGHT}" role="img" aria-label="{label}">'
    yield f"<style>{STYLE}</style>"
    for name, turn in ("head", "auto"), ("tail", "auto-start-reverse"):
        yield (f'<marker id="{name}" viewBox="0 0 8 8" refX="7" refY="4" markerWidth="7" markerHeight="7" orient="{turn}">'
               '<polygon points="0,0 8,4 0,8" fill="#444"/></marker>')
    yield f'<rect width="{WIDTH}" height="{HEIGHT}" fill="#fff"/>'
    yield from legend()
    for it in BOXES:
        yield from box(*it)
    for points, is_both in WAYS:
        yield f'<path{" class=" + chr(34) + "both" + chr(34) if is_both else ""} d="{points}"/>'
    for x, y, words in NOTES:
        yield f'<text class="note middle" x="{x}" y="{y}">{escape(words)}</text>'
    yield "</svg>"


def main():
    parser = Parser(__doc__, None, "with --check, the picture differs")
    parser.add_argument("--check", action="store_true", help="compare alone")
    is_check, text = parser.parse_args().check, "\n".join([*document(), ""])
    if not is_check:
        FILE.write_text(text)
    elif not FILE.is_file() or FILE.read_text() != text:
        print("docs/way.svg differs: python3 -m tools.way draws it")
        return 1
    return 0


if __name__ == "__main__":
    sys.exit(main())

"""Writes the manual pages into a folder: chpw_server(8), boddrelyn.toml(5), and kdc_mit(8) and kdc_heimdal(8), which have one
source.
"""

import pathlib
import re
import time

from harness.command import Parser
from packaging import version

HERE = pathlib.Path(__file__).resolve().parent
AGENTS = {
    "mit": {"KIND": "mit", "NAME": "kdc_mit", "TITLE": "KDC_MIT", "PROJECT": "MIT", "ARTICLE": "an"},
    "heimdal": {"KIND": "heimdal", "NAME": "kdc_heimdal", "TITLE": "KDC_HEIMDAL", "PROJECT": "Heimdal",
                "ARTICLE": "a"},
}
# each page with the package that has it
PACKAGES = {
    "chpw_server.8": "boddrelyn", "boddrelyn.toml.5": "boddrelyn",
    "kdc_mit.8": "boddrelyn-agent-mit", "kdc_heimdal.8": "boddrelyn-agent-heimdal",
}


def source_of(name):
    """A page's source, and the kind of agent, or None."""
    found = re.fullmatch(r"kdc_(\w+)\.8", name)
    return ("agent.8.in", found[1]) if found else (name, None)


def page(name):
    """The text of a page."""
    source, kind = source_of(name)
    words = AGENTS.get(kind, {})
    words = dict(words, VERSION=version.PROGRAM, DATE=time.strftime("%B %-d, %Y", time.gmtime(version.moment())))
    lines = []
    for line in (HERE / "man" / source).read_text().splitlines():
        of_kind = re.match(r"@(mit|heimdal) ", line)
        if of_kind is None or of_kind[1] == kind:
            lines.append(line if of_kind is None else line[of_kind.end():])
    return re.sub(r"@([A-Z]+)@", lambda it: words[it[1]], "\n".join(lines) + "\n")


def main():
    parser = Parser(__doc__, None, "a page can't be written")
    parser.add_argument("folder", type=pathlib.Path, metavar="FOLDER", help="made if it isn't there")
    folder = parser.parse_args().folder
    folder.mkdir(parents=True, exist_ok=True)
    for name in PACKAGES:
        (folder / name).write_text(page(name))


if __name__ == "__main__":
    main()

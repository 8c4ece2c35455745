"""The version and the toolchain that the program prints are those of the documents, and of `rt`, if that is there. Of a kit's
name the letter at its end doesn't count: it tells builds of one toolchain apart, by which the same is proved.
"""

import re
import shutil
import subprocess

from .tree import TOP

SOURCE = "crates/chpw_invocation/src/program.rt"
SHORT = re.compile(r'^pub const VERSION: &str = "([\d.]+)";', re.MULTILINE)
LONG = re.compile(r'^const LONG_VERSION: &str =\s*"([\d.]+)\\ntoolchain ([^"]+)";', re.MULTILINE)
TOOLCHAIN = re.compile(r"`rt version`[^`]*`([^`]+)`")
RELEASE = re.compile(r"^## \[(\d[\d.]*)\]", re.MULTILINE)


def kit(words):
    """A toolchain's line without the letter of its build."""
    return re.sub(r"(rattle-kit-\d+)[a-z]?\b", r"\1", words)


def check(tree, faults):
    text = (TOP / SOURCE).read_text()
    short, long = SHORT.search(text), LONG.search(text)
    if not faults.check(short and long, SOURCE, "no VERSION, or no LONG_VERSION with a toolchain"):
        return
    faults.check(long[1] == short[1], SOURCE, f"LONG_VERSION has {long[1]}, and VERSION is {short[1]}")
    release = RELEASE.search((TOP / "CHANGELOG.md").read_text())
    if release:
        faults.check(release[1] == short[1], SOURCE, f"VERSION is {short[1]}, and the newest of CHANGELOG.md is {release[1]}")
    for document in tree.documents:
        for number, line in enumerate(document.lines, 1):
            for found in TOOLCHAIN.findall(line):
                faults.check(kit(found) == long[2], f"{document.name}:{number}", f"has {found}, and LONG_VERSION has {long[2]}")
    if shutil.which("rt"):
        run = subprocess.run(["rt", "version"], cwd=TOP, capture_output=True, text=True, check=False)
        said = run.stdout.strip()
        faults.check(kit(said) == long[2], SOURCE, f"LONG_VERSION has {long[2]}, and rt says that it is {said}")

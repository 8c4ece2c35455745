"""The record that the gate leaves beside the program it has proved, by which packaging.deb knows that program.

    python3 -m packaging.gate_record sources            prints the sum of the sources, when the gate begins
    python3 -m packaging.gate_record write SOURCES LOG  writes crates/chpw_server/out/proved, when it has ended; LOG is what
                                                        `rt ci` printed
    python3 -m packaging.gate_record check [PROGRAM]    says whether PROGRAM may be packed as proved, with status 1 if it may not

The record has the program's checksum, the sum of the sources that were proved (crates, crates.txt, HANDLES, the agents), the
toolchain, the commit, and the last line of `rt ci`. It is no signature: it finds a program that was built in another way, or
sources that were changed during the gate or after it.
"""

import hashlib
import os
import pathlib
import re
import subprocess
import sys

TOP = pathlib.Path(__file__).resolve().parent.parent
PROGRAM = TOP / "crates/chpw_server/out/chpw_server"
PARTS = ("crates", "crates.txt", "HANDLES", "agent")
# what is made of the sources
MADE = {"out", "__pycache__"}
FIELDS = ("program", "sources", "commit", "toolchain", "gate")
GOOD = re.compile(r"\d+ passed, 0 failed")


def sum_of(file):
    return hashlib.sha256(file.read_bytes()).hexdigest()


def files():
    for part in PARTS:
        if (TOP / part).is_file():
            yield TOP / part
        for folder, names, found in os.walk(TOP / part):
            names[:] = sorted(set(names) - MADE)
            yield from (pathlib.Path(folder) / it for it in sorted(found))


def sources():
    """One sum over the names and the sums of all files that the gate proves or tries."""
    told = hashlib.sha256()
    for file in files():
        told.update(f"{sum_of(file)}  {file.relative_to(TOP)}\n".encode())
    return told.hexdigest()


def said(*words):
    """What a command prints, or nothing where it can't be run."""
    try:
        done = subprocess.run(words, cwd=TOP, capture_output=True, text=True, check=False)
    except FileNotFoundError:
        return ""
    return done.stdout.strip() if done.returncode == 0 else ""


def commit():
    return said("git", "rev-parse", "HEAD") or "none"


def place_of(program):
    return program.parent / "proved"


def write(before, log):
    """The record, if the sources are what they were and all of `rt ci` passed; otherwise none, and why."""
    place_of(PROGRAM).unlink(missing_ok=True)
    last = (log.read_text(errors="replace").splitlines() or [""])[-1]
    if not GOOD.fullmatch(last):
        return f"rt ci ended with: {last}"
    if sources() != before:
        return "sources were changed while the gate ran"
    values = (sum_of(PROGRAM), before, commit(), said("rt", "version").splitlines()[0], last)
    place_of(PROGRAM).write_text("".join(f"{name} {value}\n" for name, value in zip(FIELDS, values)))
    return None


class Refused(Exception):
    """Why a program isn't packed as proved."""


def checked(program):
    """The fields of the record, if it is of this program and these sources."""
    place = place_of(program)
    if not place.is_file():
        raise Refused(f"the gate left no record of it at {place}")
    found = dict(line.partition(" ")[::2] for line in place.read_text().splitlines())
    if not set(FIELDS) <= found.keys() or not GOOD.fullmatch(found["gate"]):
        raise Refused(f"{place} isn't a record of a gate that passed")
    if found["program"] != sum_of(program):
        raise Refused("the gate proved another program: this one was built after it")
    if found["sources"] != sources():
        raise Refused(f"the sources have changed since the gate ({', '.join(PARTS)})")
    changed = said("git", "status", "--porcelain")
    if changed:
        raise Refused(f"the clone has changes that no commit has: {changed.splitlines()[0].strip()} ..")
    # these sources are those of the present commit, too
    return found | {"commit": commit()}


def main():
    words = sys.argv[1:]
    if words == ["sources"]:
        place_of(PROGRAM).unlink(missing_ok=True)
        print(sources())
    elif len(words) == 3 and words[0] == "write":
        reason = write(words[1], pathlib.Path(words[2]))
        if reason:
            print(f"packaging.gate_record: no record: {reason}", file=sys.stderr)
    elif words[:1] == ["check"] and len(words) <= 2:
        try:
            print(checked(pathlib.Path(*words[1:]) if words[1:] else PROGRAM)["gate"])
        except Refused as fault:
            sys.exit(f"not proved: {fault}")
    else:
        sys.exit(f"usage:{__doc__.partition(chr(10) * 2)[2].partition(chr(10) * 2)[0]}")


if __name__ == "__main__":
    main()

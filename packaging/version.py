"""The version of the program, in its source, and the moment that packages and pages are dated."""

import os
import pathlib
import re
import subprocess

TOP = pathlib.Path(__file__).resolve().parent.parent
SOURCE = TOP / "crates/chpw_invocation/src/program.rt"
PROGRAM = re.search(r'VERSION: &str = "([^"]+)"', SOURCE.read_text())[1]


def moment():
    """Seconds since 1970: SOURCE_DATE_EPOCH, or the last commit's time, or 0 outside a clone."""
    if "SOURCE_DATE_EPOCH" in os.environ:
        return int(os.environ["SOURCE_DATE_EPOCH"])
    run = subprocess.run(["git", "log", "-1", "--format=%ct"], cwd=TOP, capture_output=True, text=True, check=False)
    return int(run.stdout) if run.stdout.strip().isdigit() else 0

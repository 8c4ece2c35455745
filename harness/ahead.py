"""A clock ahead of the machine's: a library for LD_PRELOAD, by which a command's requests pass a service's quiet time."""

import pathlib
import subprocess

# seconds: the service's quiet time, and the clock skew that it allows
AHEAD = 300


def clock_ahead(folder):
    """A library for LD_PRELOAD, compiled."""
    library = folder / "ahead.so"
    source = pathlib.Path(__file__).resolve().with_name("ahead.c")
    subprocess.run(
        ["gcc", "-std=c11", "-O1", f"-DAHEAD={AHEAD}", "-shared", "-fPIC", "-o", library, source],
        check=True,
    )
    return library

"""A machine that misbehaves as a script wants it: what is loaded before the C library (machine.c)."""

import os
import pathlib
import subprocess


def machine(folder, **words):
    """The environment of a program whose machine does as these words have it (machine.c)."""
    library = pathlib.Path(folder) / "machine.so"
    subprocess.run(
        ["gcc", "-std=c11", "-O1", "-shared", "-fPIC", "-o", library, pathlib.Path(__file__).with_name("machine.c")], check=True)
    return {**os.environ, "LD_PRELOAD": str(library), **{name: str(value) for name, value in words.items()}}


def slow_sync(folder, milliseconds):
    """The environment in which each sync of a program takes so long."""
    return machine(folder, SLOW=milliseconds)

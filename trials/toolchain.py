"""The toolchain's own command, as a module."""

import importlib.machinery
import importlib.util
import os
import shutil


def load(path):
    """The toolchain's own command, whose judgement of an edit is the gate's."""
    loader = importlib.machinery.SourceFileLoader("rt", path)
    module = importlib.util.module_from_spec(importlib.util.spec_from_loader("rt", loader))
    loader.exec_module(module)
    return module


rt = load(os.path.realpath(shutil.which("rt")))

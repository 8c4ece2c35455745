"""Names in backquotes: crates, functions of types and modules, files, options of commands."""

import re

from .sources import crate
from .tree import TOP

# Prefixes and endings of crates' names.
CRATE = re.compile(r"(?:krb|chpw|cases|tests|support)_[a-z0-9_]+|[a-z0-9]+(?:_[a-z0-9]+)*_(?:cases|tests|vectors)")
PATH = re.compile(r"([A-Za-z_]\w*(?:::[A-Za-z_]\w*)+)(?:::\{([\w, ]+)\})?(?:\(.*\))?")
GROUP = re.compile(r"([A-Za-z_]\w*(?:::[A-Za-z_]\w*)*)::\{([\w, ]+)\}")
OPTION = re.compile(r"(?<![\w-])--([a-z]+(?:-[a-z]+)*)")
FILE = re.compile(r"(?:\.ci|bench|crates|docs|harness|kdc|must-fail|packaging|samples|tests|tools|trials)/[\w./-]+")
# A script, or another module, as `python3 -m` names it.
SCRIPT = re.compile(r"(?:^|python3 -m )((?:bench|harness|packaging|tests|tools|trials)(?:\.[a-z]\w*)+)")

# Crates' names that are none of ours, and names of the libraries' and of other projects'.
FOREIGN_CRATES = {"krb_error", "krb_priv", "krb_ap_req", "krb_ap_rep"}
FOREIGN_OWNERS = {"Vec", "String", "File", "Result", "Option", "Files", "std", "fs", "io", "net", "env", "process", "mio", "clap", "toml"}
# Calls that stand for several, and files that a reader makes.
PLACEHOLDERS = {"read_x", "write_x"}
MADE = re.compile(r"/out(/|$)|^crates/NAME|\.\.|^docs/promises\.md$")


def options(tree):
    """The words of all options: those of the program stand in its sources without dashes."""
    known = set()
    for file in tree.files():
        if file.suffix == ".rt":
            known |= set(re.findall(r"\"([a-z]+(?:-[a-z]+)*)\"", file.read_text()))
        elif file.suffix in ("", ".py", ".sh", ".c", ".service"):
            known |= set(OPTION.findall(file.read_text(errors="replace")))
    return known


def check(tree, faults):
    known, known_options = set(tree.crates), options(tree)
    for document in tree.documents:
        own = document.path.parent.name if document.path.parent.parent.name == "crates" else None
        for number, span in document.spans():
            place = f"{document.name}:{number}"
            if CRATE.fullmatch(span) and span not in FOREIGN_CRATES:
                faults.check(span in known or has_anywhere(tree, span), place, f"no crate and no function {span}")
            for option in OPTION.findall(span) if not span.startswith("rt ") else ():
                faults.check(option in known_options, place, f"no option --{option}")
            for path in paths_in(span):
                faults.check(is_known(tree, own, path), place, f"no {'::'.join(path)}")
            if FILE.fullmatch(span) and not re.search(r"\b[A-Z]{3,}\b", span) and not MADE.search(span):
                faults.check((TOP / span).exists() or any(TOP.glob(span)), place, f"no file {span}")
            for script in SCRIPT.findall(span):
                faults.check(is_script(script), place, f"no script {script}")


def is_script(name):
    """Whether a module is there, or a package that runs as one."""
    path = TOP / name.replace(".", "/")
    return path.with_suffix(".py").is_file() or path.is_dir()


def paths_in(span):
    """The paths that a span names, each as its parts."""
    group = GROUP.fullmatch(span)
    if group:
        return [[*group[1].split("::"), name.strip()] for name in group[2].split(",")]
    path = PATH.fullmatch(span)
    return [path[1].split("::")] if path else []


def has_anywhere(tree, name):
    return any(crate(it).has(name) or crate(it).defines(name) for it in tree.crates)


def is_known(tree, own, path):
    """Whether a path leads to something: in this crate, in the one that it begins with, or in any."""
    if path[0] in FOREIGN_OWNERS or path[-1] in PLACEHOLDERS:
        return True
    if path[0] in tree.crates:
        found, rest = crate(path[0]), path[1:]
        return all(map(found.has, rest)) if len(rest) < 2 else found.has_in(rest[-2], rest[-1])
    if path[0] == "crate" and own:
        path = path[1:]
    owner, name = path[-2] if len(path) > 1 else None, path[-1]
    return any(crate(it).has_in(owner, name) for it in tree.crates)

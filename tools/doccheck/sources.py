"""What the crates' sources and definitions have: modules, types, functions with their clauses, words of specs."""

import collections
import functools
import re

from .tree import TOP

CRATES = TOP / "crates"
FUNCTION = re.compile(r"^( *)(?:pub(?:\([a-z]+\))? )?(?:ghost |const |unsafe )*fn (\w+)", re.MULTILINE)
OWNER = re.compile(r"^(?:pub(?:\([a-z]+\))? )?(?:unsafe )?(impl|trait)\b((?:.|\n)*?)\{\}?$", re.MULTILINE)
TYPE = re.compile(r"^\s*(?:pub(?:\([a-z]+\))? )?(?:struct|enum|trait|union|type) (\w+)", re.MULTILINE)
REUSED = re.compile(r"^pub use (\w+)::(?:(\w+)::)?(?:\{([^}]*)\}|(\w+));", re.MULTILINE)
VALUE = re.compile(r"^\s*(?:pub(?:\([a-z]+\))? )?(?:const|static) (\w+)", re.MULTILINE)
GHOST = re.compile(r"^\s+(?:pub )?ghost (\w+)(?: =|:)", re.MULTILINE)
MEMBER = re.compile(r"^    (?:pub(?:\([a-z]+\))? )?(\w+)(?:\s*[:({,]|$)", re.MULTILINE)
DEFINITION = re.compile(r"^\s*(?:pub )?(?:abbrev|unfoldable|record|data|def|law)\b(?: pub| rec)* ([^\s:(]+)", re.MULTILINE)
FIELD = re.compile(r"^\s+pub ([\w']+) :", re.MULTILINE)
VARIANT = re.compile(r"^\s+pub ([A-Z][\w']*)\b", re.MULTILINE)


class Crate:
    """A crate's names."""

    def __init__(self, name):
        self.name = name
        self.functions = collections.defaultdict(set)  # name: clauses of all functions of this name
        self.owned = collections.defaultdict(dict)  # type, trait or module: {function: clauses}
        self.types = collections.defaultdict(set)  # type: its members, and its ghost words
        self.modules = collections.defaultdict(set)  # module: its names
        self.traits = collections.defaultdict(set)  # of each type the traits that it is of
        self.reused = set()  # names of other crates that this one gives on
        self.values = set()
        self.specs = collections.defaultdict(set)  # file of specs: its definitions
        self.fields = set()
        folder = CRATES / name
        for file in sorted((folder / "src").rglob("*.rt")):
            self.read_source(file.stem if file.stem != "mod" else file.parent.name, file.read_text())
        for file in sorted((folder / "specs").rglob("*.antt")):
            text = file.read_text()
            self.specs[file.stem] |= set(DEFINITION.findall(text)) | set(VARIANT.findall(text))
            self.fields |= set(FIELD.findall(text))
        self.proofs = {file.stem for file in (folder / "proofs").rglob("*.antt")}

    def read_source(self, module, text):
        owners = []
        for match in OWNER.finditer(text):
            end = text.find("\n}", match.start())
            owners.append((match.start(), end if end != -1 else len(text), owner_names(match[1], match[2])))
            if len(owners[-1][2]) == 2:
                self.traits[owners[-1][2][1]].add(owners[-1][2][0])
            for name in owners[-1][2]:
                self.types[name] |= set(GHOST.findall(text[match.start() : end]))
        for match in FUNCTION.finditer(text):
            clauses = clauses_of(text, match)
            self.functions[match[2]] |= clauses
            names = [it for start, end, found in owners if start <= match.start() < end for it in found]
            for name in names or [module]:
                self.owned[name].setdefault(match[2], set()).update(clauses)
            self.modules[module].add(match[2])
        for match in TYPE.finditer(text):
            end = text.find("\n}", match.start())
            body = text[match.end() : end if end != -1 else len(text)]
            self.types[match[1]] |= set(MEMBER.findall(body)) | set(GHOST.findall(body))
            self.modules[module].add(match[1])
        for _, _, several, single in REUSED.findall(text):
            names = {it.strip() for it in several.split(",")} | {single}
            self.reused |= names - {""}
            self.modules[module] |= names - {""}
        self.values |= set(VALUE.findall(text))
        self.modules[module] |= set(VALUE.findall(text))

    def has(self, name):
        """Whether it has a function, a type, a constant or a module of this name."""
        return any(name in it for it in (self.functions, self.types, self.values, self.modules, self.reused))

    def has_in(self, owner, name):
        """Whether a type, a trait or a module has this name."""
        return name in self.owned.get(owner, {}) or name in self.types.get(owner, ()) or name in self.modules.get(owner, ())

    def defines(self, name):
        return any(name in found for found in self.specs.values()) or name in self.fields


def owner_names(kind, rest):
    """The type of an `impl`, and the trait that it is of; the name of a `trait`."""
    rest = re.split(r"\bwhere\b", drop_brackets(rest))[0]
    if kind == "trait":
        return re.findall(r"\w+", rest)[:1]
    return [it[-1] for it in (re.findall(r"\w+", part) for part in re.split(r"\bfor\b", rest)) if it]


def drop_brackets(text):
    """A text without what stands in angle brackets, and without references and lifetimes."""
    kept, depth = [], 0
    for place, letter in enumerate(text):
        depth += letter == "<"
        if depth == 0:
            kept.append(letter)
        depth -= letter == ">" and text[place - 1] != "-"
    return re.sub(r"'\w+|&|\bmut\b", " ", "".join(kept))


def clauses_of(text, match):
    """The names of a function's clauses: those between its name and its body."""
    indent = match[1]
    ends = [text.find(f"\n{indent}{{", match.end())]
    following = FUNCTION.search(text, match.end())
    ends.append(following.start() if following else -1)
    one_line = text[match.end() : text.find("\n", match.end())]
    if one_line.rstrip().endswith(("{", ";", "}")):
        return set()
    end = min((it for it in ends if it != -1), default=len(text))
    return set(re.findall(r"^\s+ensures\*? (\w+)", text[match.end() : end], re.MULTILINE))


@functools.lru_cache(None)
def crate(name):
    return Crate(name)


@functools.lru_cache(None)
def uses():
    """Of each crate those that it names in crates.txt, with all that these name."""
    lines = [line.split("#")[0] for line in (TOP / "crates.txt").read_text().splitlines()]
    direct = {name.strip(): words.split() for name, words in (it.split(":") for it in lines if ":" in it)}

    def below(name, seen):
        for other in direct.get(name, ()):
            if other in direct and other not in seen:
                seen.add(other)
                below(other, seen)
        return seen

    return {name: below(name, set()) for name in direct}

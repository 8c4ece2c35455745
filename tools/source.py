"""The sources, as the scripts of this folder read them: crates, definitions, types, contracts and clauses."""

import collections
import dataclasses
import pathlib
import re
import sys

from harness.command import TOP

CRATES = TOP / "crates"
WORD = re.compile(r"[A-Za-z_][A-Za-z0-9_']*")
FIELD = re.compile(r"\.([a-z_][A-Za-z0-9_]*)")
IMPORT = re.compile(r"^\s*(?:ghost )?(?:pub )?use ((?:Rattle|mathlib|lib)\.[\w.]+?)(?:\.\{([^}]*)\}| as (\w+))?;?\s*$")
ITEM = re.compile(r"(?:\s*(?:pub )?(?:abbrev|unfoldable|data|def)|\s*pub record|record)\b(?: pub| rec)* ([^\s:({]+)")
TYPE = re.compile(r"^(?:pub(?:\([a-z]+\))? )?(struct|enum|trait) (\w+)", re.MULTILINE)
RUST_USE = re.compile(r"^use (\w+)(?:::[\w:]+)?::(?:\{([^}]*)\}|(\w+));", re.MULTILINE)


@dataclasses.dataclass(frozen=True)
class Definition:
    """What a word stands for: its file, its text, and the words in which that text is to be read."""

    place: str
    name: str
    text: str
    kind: str
    crate: str
    parts: tuple = ()

    def lines(self):
        """How many lines it has, without comments, attributes, imports and empty ones."""
        code = (line.strip() for line in self.text.splitlines())
        return sum(1 for line in code if line and not line.startswith(("--", "//", "#[", "ghost use")))


def crates():
    """The crates in the order of crates.txt, each with the crates of this repository below it."""
    lines = [line.split("#")[0] for line in (TOP / "crates.txt").read_text().splitlines()]
    uses = {name.split()[0]: words.split() for name, _, words in (it.partition(":") for it in lines if ":" in it)}
    return {name: [it for it in words if it in uses] for name, words in uses.items()}


def imports(text):
    """For each word that these lines import, the path that it stands for."""
    found = {}
    for line in text.splitlines():
        match = IMPORT.match(line)
        if match is None:
            continue
        path, words, other = match.groups()
        if words is None:
            found[other or path.rpartition(".")[2]] = path
            continue
        for word in filter(None, map(str.strip, words.split(","))):
            name, _, alias = word.partition(" as ")
            found[alias or name] = f"{path}.{name}"
    return found


def items(text):
    """The text of each definition in a specification file, with the comment above it."""
    found, pending, current = {}, [], None
    for line in text.splitlines():
        match = ITEM.match(line)
        if match:
            current = match[1]
            found[current] = [*pending, line]
            pending = []
        elif line.lstrip().startswith("--"):
            pending.append(line)
        elif not line.strip() or re.match(r"\s*((pub )?(use|mod)|module) ", line):
            pending = []
        elif current is not None:
            found[current] += [*pending, line]
            pending = []
    return {name: "\n".join(lines) for name, lines in found.items()}


def holder(found, name):
    """The definition that a name stands for: its own, or that of the data type of which it is a constructor."""
    if name in found:
        return name
    line = re.compile(rf"^\s+(?:pub )?{re.escape(name)} :", re.MULTILINE)
    return next((it for it, text in found.items() if re.search(r"^\s*(pub )?data\b", plain(text), re.MULTILINE) and line.search(text)), None)


def block(text, start):
    """From there to the end of the braces, or of the line where there are none."""
    brace, end = text.find("{", start), text.find(";", start)
    if brace == -1 or start <= end < brace:
        return text[start : end + 1]
    depth = 0
    for offset in range(brace, len(text)):
        depth += {"{": 1, "}": -1}.get(text[offset], 0)
        if depth == 0:
            return text[start : offset + 1]
    return text[start:]


def plain(text):
    """Without comments."""
    return re.sub(r"(--|//).*", "", text)


class Sources:
    """The files of all crates, each read once."""

    def __init__(self):
        self.texts = {}
        self.types = collections.defaultdict(dict)

    def text(self, path):
        if path not in self.texts:
            self.texts[path] = path.read_text() if path.is_file() else ""
        return self.texts[path]

    def type_files(self, crate):
        """For each type of a crate the file that declares it."""
        if crate not in self.types:
            for path in sorted((CRATES / crate / "src").rglob("*.rt")):
                for match in TYPE.finditer(self.text(path)):
                    self.types[crate].setdefault(match[2], path)
        return self.types[crate]

    def defined(self, path):
        """The definition that a path stands for; None if it is a library's."""
        parts = path.split(".")
        if parts[0] != "Rattle" or len(parts) < 4 or not (CRATES / parts[1]).is_dir():
            return None
        crate, rest = parts[1], parts[3:]
        if "TheConstants" in rest:
            return self.constant(crate, rest[-1])
        rest = [part for part in rest if part != "TheVariants"]
        if rest and rest[0] == "declared":
            return self.declared(crate, rest[1:])
        if len(rest) < 2:
            return None
        file = CRATES / crate / "specs" / pathlib.Path(*rest[:-1]).with_suffix(".antt")
        found = items(self.text(file))
        name = holder(found, rest[-1])
        return Definition(str(file.relative_to(TOP)), name, found[name], "spec", crate) if name else None

    def constant(self, crate, name):
        for file in sorted((CRATES / crate / "src").rglob("*.rt")):
            match = re.search(rf"^pub(?:\([a-z]+\))? const {name}: .*;.*$", self.text(file), re.MULTILINE)
            if match:
                return Definition(str(file.relative_to(TOP)), name, match[0], "rust", crate)
        return None

    def declared(self, crate, rest):
        """A type of the program, by its name, or by the name of one of its variants."""
        for name in reversed(rest):
            file = self.type_files(crate).get(name)
            if file:
                return self.type_of(crate, name, file)
        return None

    def type_of(self, crate, name, file, whole=False):
        """A type, and what contracts see of it; its invariant only as a whole."""
        text = self.text(file)
        match = next(it for it in TYPE.finditer(text) if it[2] == name)
        found = [block(text, match.start())]
        model = re.search(rf"^impl(?:<[^>]*>)? Model for {name}\b", text, re.MULTILINE)
        view = ""
        if model:
            body = block(text, model.start())
            if not whole:
                body = without_invariant(body)
            found.append(body)
            view = body
        place = str(file.relative_to(TOP))
        return Definition(place, name, "\n".join(found), match[1], crate, (found[0], view))

    def spoken(self, definition, used):
        """The text of a definition of which the words count, where contracts speak of these fields."""
        if definition.kind == "contract" and len(definition.parts) == 1:
            return definition.parts[0]
        if definition.kind == "struct":
            fields, view = definition.parts
            if not view:
                return "\n".join(line for line in fields.splitlines() if counts(line, used))
            kept = "\n".join(line for line in plain(view).splitlines() if counts_in_view(line, used))
            inner = used_fields(kept)
            return kept + "\n" + "\n".join(line for line in fields.splitlines() if counts(line, inner))
        return definition.text

    def words(self, definition, used):
        """The definitions, and the libraries' words, that a definition names."""
        file = TOP / definition.place
        named = imports(self.text(file)) | imports(definition.text)
        own = items(self.text(file)) if definition.kind == "spec" else {}
        code = plain("\n".join(it for it in self.spoken(definition, used).splitlines() if "ghost use" not in it))
        for word in dict.fromkeys(WORD.findall(code)):
            if word == definition.name:
                continue
            if word in own:
                yield word, Definition(definition.place, word, own[word], "spec", definition.crate)
            elif word in named:
                yield from self.named(word, named[word], code)
            elif definition.kind != "spec":
                found = self.rust_type(definition, word)
                if found:
                    yield word, found
        yield from self.operators(definition, named, own, code)

    def operators(self, definition, named, own, code):
        """The operators of this repository that are used; `do` uses the one that joins its lines."""
        for name in [*own, *named]:
            sign = name.replace("◌", "")
            is_used = sign in code or (sign == ">>=" and re.search(r"\bdo\b", code))
            if sign == name or name == definition.name or not is_used:
                continue
            if name in own:
                yield name, Definition(definition.place, name, own[name], "spec", definition.crate)
            elif found := self.defined(named[name]):
                yield name, found

    def named(self, word, path, code):
        """What an imported word stands for: a definition, or a module of which definitions are named."""
        found = self.defined(path)
        members = [] if found else re.findall(rf"\b{word}\.(\w+)", code)
        inner = {name: self.defined(f"{path}.{name}") for name in members}
        if found or not any(inner.values()):
            yield (word, found) if found else (path, None)
        for name, definition in inner.items():
            if definition:
                yield name, definition

    def rust_type(self, definition, word):
        """A type of the same crate, or of one that the file imports."""
        if word in self.type_files(definition.crate):
            return self.type_of(definition.crate, word, self.type_files(definition.crate)[word])
        for used, words, single in RUST_USE.findall(self.text(TOP / definition.place)):
            names = {single} | {it.strip() for it in words.split(",")}
            if word in names and (CRATES / used).is_dir() and word in self.type_files(used):
                return self.type_of(used, word, self.type_files(used)[word])
        return None

    def functions(self, crate):
        """Each function of a crate: its file, its type or module, its name, and its head with the contract."""
        for file in sorted((CRATES / crate / "src").rglob("*.rt")):
            text = self.text(file)
            for match in re.finditer(r"^( *)(?:pub(?:\([a-z]+\))? )?(?:const )?fn (\w+)\b", text, re.MULTILINE):
                head = head_at(text, match.start())
                yield file, owner_of(text, file, match), match[2], head, bounds_of(text, match)

    def contract(self, crate, path, clauses=()):
        """A function's contract, or a type with its invariant, as a definition."""
        owner, _, name = path.rpartition("::")
        if not owner and name in self.type_files(crate):
            found = self.type_of(crate, name, self.type_files(crate)[name], whole=True)
            return dataclasses.replace(found, kind="contract")
        found = [it for it in self.functions(crate) if it[2] == name and "ensures" in it[3] and owner in ("", it[1])]
        for file, _, _, head, bounds in sorted(found, key=lambda it: it[3].startswith(" ")):
            return self.head(crate, path, file, head, bounds, clauses)
        traits = [trait for trait, type_name, *_ in self.instances(crate) if type_name == owner]
        more = "".join(f"; {crate} {owner} as {trait} is an instance" for trait in traits)
        return sys.exit(f"there is no {path} with a contract in {crate}{more}")

    def instances(self, crate):
        """Each impl of a trait: the trait, the type, the file, the head of the impl, and its block."""
        for file in sorted((CRATES / crate / "src").rglob("*.rt")):
            text = self.text(file)
            for match in re.finditer(r"^impl\b", text, re.MULTILINE):
                body = block(text, match.start())
                head = body[: body.find("{")]
                rest = head[generics_end(head, len("impl")) :]
                found = re.match(r"\s*(?:\w+::)*(\w+)(?:<.*>)?\s+for\s+&?(?:'\w+\s+)?(\w+)", rest, re.DOTALL)
                if found:
                    yield *found.groups(), file, head, body

    def instance(self, crate, name, trait, clauses=()):
        """What a type's instance of a trait adds to it: what its ghost members stand for, and the clauses of its methods
        that the trait hasn't. Its laws are proofs of what the trait says of them, and so left out."""
        for found, type_name, file, head, body in self.instances(crate):
            if (found, type_name) == (trait, name):
                return self.members(crate, f"{name} as {trait}", file, head, body, clauses)
        return sys.exit(f"there is no instance {name} as {trait} in {crate}")

    def members(self, crate, path, file, head, body, clauses):
        name, _, trait = path.partition(" as ")
        place = str(file.relative_to(TOP))
        declared = self.rust_type(Definition(place, path, "", "contract", crate), trait)
        laws = laws_of(declared.text) if declared else set()
        found = {it[1]: block(body, it.start()) for it in re.finditer(r"^    ghost (\w+) = ", body, re.MULTILINE)}
        found = {key: text for key, text in found.items() if key not in laws}
        for it in re.finditer(r"^ +(?:const )?fn (\w+)\b", body, re.MULTILINE):
            if "ensures" in head_at(body, it.start()):
                found[it[1]] = head_at(body, it.start())
        for wanted in clauses:
            if wanted not in found:
                sys.exit(f"{path} has no {wanted}")
        kept = [text.strip() for key, text in found.items() if not clauses or key in clauses]
        uses = re.findall(r"^    ghost use .*;", body, re.MULTILINE)
        said = plain("\n".join(kept))
        bounds = re.findall(r"(\w+): (\w+)", head[: generics_end(head, len("impl"))])
        spoken = [said, name, trait, *(bound for variable, bound in bounds if re.search(rf"\b{variable}\.", said))]
        text = "\n".join([f"{head.rstrip()} {{", *uses, *[""] * bool(uses), "\n\n".join(f"    {it}" for it in kept), "}"])
        return Definition(place, path, text, "contract", crate, ("\n".join(spoken),))

    def head(self, crate, path, file, head, bounds, clauses):
        signature, found = clauses_of(head)
        for name in clauses:
            if not any(it.partition(" ")[0] == name for it in found):
                sys.exit(f"{path} has no clause {name}")
        kept = [it for key, it in found.items() if not clauses or key.partition(" ")[0] in clauses]
        said = plain("\n".join(kept))
        text = signature + "".join(kept)
        spoken = [said]
        for parameter in re.findall(r"(\w+): ([^,()]+(?:<[^()]*>)?)", signature):
            if re.search(rf"\b{parameter[0]}\b", said):
                spoken.append(parameter[1])
        if re.search(r"\bresult\b", said):
            spoken.append(signature.rpartition("->")[2])
        if re.search(r"\bself\b", said):
            spoken.append(path.rpartition("::")[0])
        spoken += [bound for variable, bound in bounds if re.search(rf"\b{variable}\.", said)]
        return Definition(str(file.relative_to(TOP)), path, text, "contract", crate, ("\n".join(spoken),))


def laws_of(trait):
    """The ghost members of a trait that say something of other ones: an instance has a proof of each."""
    found = {it[1]: plain(block(trait, it.start())) for it in re.finditer(r"^    ghost (\w+):", trait, re.MULTILINE)}
    return {name for name, text in found.items() if set(WORD.findall(text)) & (found.keys() - {name})}


def used_fields(text):
    return set(FIELD.findall(plain(text)))


def counts(line, used):
    """Whether a line of a struct declares something that contracts speak of."""
    match = re.match(r"\s*(?:pub(?:\([a-z]+\))? )?(\w+):", line)
    return not match or match[1] in used or "ghost" in line.split(":")[0]


def counts_in_view(line, used):
    """Whether a line of a view is other than that of a field of which no contract speaks."""
    match = re.match(r"\s*(\w+) = ", line)
    return not match or match[1] in used


def without_invariant(body):
    start = body.find("ghost invariant")
    if start == -1:
        return body
    end = start + len(block(body, start))
    return body[:start].rstrip() + "\n" + body[end:].lstrip(";").lstrip("\n")


def impl_before(text, start):
    """The head of the impl or trait around this place; empty where there is none."""
    heads = list(re.finditer(r"^(?:impl\b|pub(?:\([a-z]+\))? trait\b)", text[:start], re.MULTILINE))
    return text[heads[-1].start() : text.index("{", heads[-1].start())] if heads else ""


def generics_end(head, start):
    """Behind the angle brackets that begin there, if any do."""
    depth = 0
    for offset in range(start, len(head)):
        depth += {"<": 1, ">": -1}.get(head[offset], 0)
        if depth == 0:
            return offset + 1 if head[start] == "<" else start
    return start


def owner_of(text, file, match):
    """The type or trait in whose block a function stands; the module where it stands in none."""
    head = impl_before(text, match.start()) if match[1] else ""
    if not head:
        return file.stem
    if not head.startswith("impl"):
        return re.search(r"trait (\w+)", head)[1]
    rest = head[generics_end(head, len("impl")) :]
    found = re.search(r"\bfor\s+&?(?:'\w+\s+)?(\w+)", rest) or re.search(r"(\w+)", rest)
    return found[1]


def bounds_of(text, match):
    """The bounds of the impl around a function: pairs of a type variable and a trait."""
    head = impl_before(text, match.start()) if match[1] else ""
    return re.findall(r"(\w+): (\w+)", head[: generics_end(head, len("impl"))]) if head.startswith("impl<") else []


def head_at(text, start):
    """A function's signature and its clauses, from there on."""
    depth, end = 0, start
    while end < len(text) and (depth or text[end] not in "{;"):
        depth += {"(": 1, "[": 1, ")": -1, "]": -1}.get(text[end], 0)
        if not depth and re.match(r"\n\s+(requires|ensures)\b", text[end:]):
            break
        end += 1
    clause = re.compile(r"\s+(?:requires|ensures)\*?(?: \w+\*?)? (?=\{)")
    while match := clause.match(text, end):
        end = match.end() + len(block(text, match.end()))
    return text[start:end].rstrip()


def clauses_of(head):
    """The signature of a head, and each of its clauses by its name."""
    signature = re.split(r"\n\s+(?=requires|ensures)", head)[0]
    found = {}
    for text in re.findall(r"\n\s+(?:requires|ensures)\*? (?s:.*?)(?=\n\s+(?:requires|ensures)|\Z)", head):
        match = re.match(r"\s+(requires|ensures)\*? (\w+)?", text)
        found[f"{match[2] or ''} {match[1]}"] = text.rstrip()
    return signature, found


def contracts(sources, words):
    """The contracts that are asked for: `CRATE PATH [CLAUSE ..]` or `CRATE TYPE as TRAIT [MEMBER ..]`, with a `+` between
    two of them. Each is there once."""
    found, rest = [], [part for word in words for part in word.split()]
    while rest:
        end = rest.index("+") if "+" in rest else len(rest)
        crate, path, *clauses = rest[:end] if end > 1 else sys.exit(f"a crate and a path are missing: {' '.join(words)}")
        if len(clauses) > 1 and clauses[0] == "as":
            found.append(sources.instance(crate, path, clauses[1], clauses[2:]))
        else:
            found.append(sources.contract(crate, path, clauses))
        rest = rest[end + 1 :]
    return list(dict.fromkeys(found))


def walk(sources, asked, used):
    """The definitions that contracts rest on, where they speak of these fields; and the libraries' words."""
    found, seen, foreign = [], {(it.place, it.name) for it in asked}, set()
    waiting = collections.deque(asked)
    while waiting:
        for word, definition in sources.words(waiting.popleft(), used):
            if definition is None:
                foreign.add(word)
            elif (definition.place, definition.name) not in seen:
                seen.add((definition.place, definition.name))
                waiting.append(definition)
                found.append(definition)
    return found, foreign


def rests_on(sources, asked):
    """The same, for the fields that are spoken of: those that the found definitions name."""
    used = set()
    while True:
        found, foreign = walk(sources, asked, used)
        more = used_fields("\n".join(it.text for it in [*asked, *found] if it.kind in ("spec", "contract")))
        if more <= used:
            return found, foreign
        used |= more


def count_of(found):
    """How much there is to read."""
    return f"{sum(it.lines() for it in found)} lines in {len(found)} definitions"

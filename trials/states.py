"""What is known of each edit, and why one can't be tried."""
import pathlib
from typing import NamedTuple

from trials import guards


class State(NamedTuple):
    """An edit's path, what is known of it, and the day of its verdict or why it is bad."""
    edit: str
    word: str
    more: str

    def line(self):
        return f"{self.word:8}{self.more:12}{self.edit}"


class Change(NamedTuple):
    """A text that has to stand in a file once, and what replaces it."""
    file: str
    old: str
    new: str


def changes_of(edit):
    """The changes of an edit, one after the other, and its lines that say nothing: an `old:` without its `new:`, or none of
    both."""
    file, old, found, others = None, None, [], []
    for line in pathlib.Path(edit).read_text(encoding="utf-8").splitlines():
        word, _, text = line.partition(" ")
        if word == "file:":
            file = text
        elif word == "old:" and old is None:
            old = text
        elif word == "new:" and old is not None:
            found.append(Change(str(file), old, text))
            old = None
        elif word not in ("guards:", "test:"):
            others.append(line)
    return found, others if old is None else [*others, f"old: {old}"]


def change_fault(changes, folder):
    """Why these changes of the files of a folder can't be made one after the other; None if they can."""
    texts = {}
    for file, old, new in changes:
        path = pathlib.Path(folder) / file
        text = texts.get(file, path.read_text(encoding="utf-8") if path.is_file() else "")
        if text.count(old) != 1:
            return f"an `old:` text stands {text.count(old)} times in {file}"
        texts[file] = text.replace(old, new)
    return None if any(it.old != it.new for it in changes) else "it changes nothing"


def fault_of(edit, folder, top):
    """Why an edit of the files of this folder can't be tried, or guards nothing; None if it can, and does."""
    changes, others = changes_of(edit)
    if others:
        return f"a line that says nothing: {others[0]}"
    return change_fault(changes, folder) or guards.fault_of(edit, top)


def test_fault_of(edit, top):
    """Why what has to notice an edit, by its line `test:`, isn't there: a script, by its path or as a module, or a crate;
    None if it is there."""
    head = pathlib.Path(edit).read_text(encoding="utf-8").partition("\n")[0]
    name = head.removeprefix("test: ").split(" ")[0]
    module = name.replace(".", "/") + ".py"
    if head == name or not any((top / it).exists() for it in (f"crates/{name}", name, module)):
        return f"no {name} to test it"
    return None


def folder_of(edit, top):
    """The folder whose files an edit changes: that of a crate, or of the agents."""
    name = edit.split("/")[1]
    agents = (it for it in ("agent", "kdc/agent") if (top / it / "main.c").is_file())
    return top / next(agents) if name == "agent" else top / "crates" / name


def all_edits(top):
    """Every edit of must-fail/ and trials/, as a path below the top, but for those by which trials.run is tried itself."""
    found = [it for folder in ("must-fail", "trials") for it in (top / folder).rglob("*.edit")]
    return sorted(str(it.relative_to(top)) for it in found if "self_test" not in it.parts)


def state_of(edit, top, known):
    """What is known of an edit. `known` says whether its verdict is of the texts as they stand, and its day, if it has one."""
    fault = fault_of(top / edit, folder_of(edit, top), top)
    if "/tests/" in edit:
        fault = fault or test_fault_of(top / edit, top)
    if fault:
        return State(edit, "BAD", f"{fault}: ")
    if edit.startswith("must-fail/"):
        return State(edit, "gate", "each time")
    is_of_today, day = known(edit.removeprefix("trials/"))
    return State(edit, "today" if is_of_today else "before" if day else "none", day or "-")


def all_states(top, known):
    return [state_of(it, pathlib.Path(top), known) for it in all_edits(pathlib.Path(top))]

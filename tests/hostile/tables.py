"""What `table` prints of a configuration and a journal: of many, whole, cut short and with a byte changed.

`cases/tables` has blocks `file`: a configuration, `--`, and cases `lines`, `keys`, `configuration` or `prefixes` with a journal of
hexadecimal words, `-` for none; and `made`, lines `PRINCIPALS CHANGES`. `cases/journals` has journals of pieces with commas
(`tests.model.pieces`) over a table of alice and bob/admin.
"""

import functools
import tomllib

from harness.cases import main
from harness.journal import CHANGE, keys_record
from tests.case_files import FileCase, blocks_of, is_case, lines_of
from tests.model.changed_bytes import changed
from tests.model.pieces import journal_of

ITERATIONS = 4096
# The most principals that are told by name.
FEW = 10
NAMES = ["alice", "bob/admin"]
KEYS = bytes([0x33] * 16), bytes([0x44] * 32)
# How much of a case its line shows.
SHOWN = 100
# What a key has.
PARTS = {"iterations": "iteration count", "aes128": "etype 17 key", "aes256": "etype 18 key"}


def configuration_of(names, depth=2):
    """Of these names, each with a key of kvno 1 of bytes a1; so many keys of a name are kept."""
    text = f"""\
[service]
realm = "EXAMPLE.COM"
[[service.key]]
kvno = 3
etype = 18
key = "{"5a" * 32}"
[policy]
min_length = 6
min_classes = 2
depth = {depth}
iterations = {ITERATIONS}
set_needs_initial = false
"""
    key = f'kvno = 1\niterations = {ITERATIONS}\naes128 = "{"a1" * 16}"\naes256 = "{"a1" * 32}"\n'
    return text + "".join(f'[[principal]]\nname = "{name}"\n[[principal.key]]\n{key}' for name in names)


def without_changes(lines):
    """What `table` prints, but for how many changes there were."""
    return lines.rpartition("changes ")[0]


def keys_of(table):
    """Those of alice, the newest first."""
    return next((row["key"] for row in table.get("principal", []) if row["name"] == "alice"), [])


class TableCase(FileCase):
    def setUp(self):
        super().setUp()
        self.table = functools.lru_cache(maxsize=16)(self.printed)

    def printed(self, text, journal, form="lines"):
        """What `table` prints, and before that each line on standard error: about a torn record, or a fault."""
        words = ["table", "--config", "configuration", "--journal", "journal", "--as", form]
        printed, errors, status = self.ran(words, {"configuration": text.encode(), "journal": journal})
        told = [line.removeprefix("journal: ") for line in errors]
        return told if status == 0 else [*told, f"status {status}"], printed

    def told(self, text, journal, form="lines"):
        """Both as one text. A fault's status is 1, and then nothing is printed."""
        errors, printed = self.table(text, journal, form)
        if errors[-1:] == ["status 1"] and printed == "":
            errors.pop()
        return "".join(f"{line}\n" for line in errors) + printed


class Tables(TableCase):
    def answer(self, text, case):
        """The answer to a case of a block `file`, after a line with its form."""
        form, *words = case.split()
        journal = b"" if words == ["-"] else bytes.fromhex("".join(words))
        if form == "prefixes":
            fronts = (journal[:length] for length in range(len(journal)))
            return f"-- prefixes\n{self.census(lambda it: self.told(text, it).strip().replace(chr(10), '; '), fronts)}"
        told = self.told(text, journal, form)
        made = self.table(text, journal, form)[1] if form == "configuration" else ""
        return f"-- {form}\n{told}{self.likeness(made, text, journal) if made else ''}".removesuffix("\n")

    def likeness(self, made, text, journal):
        """Whether what `table` made as a configuration has the same reports without a journal, and is made of itself."""
        pairs = [(made, b""), (text, journal)]
        lines = {without_changes(self.table(*it)[1]) for it in pairs}
        keys = {self.table(*it, "keys")[1] for it in pairs}
        again = self.table(made, b"", "configuration")[1]
        return "read alike" if (len(lines), len(keys), again) == (1, 1, made) else "read as another"

    def made(self, case):
        """So many principals, each with so many changes after version 1."""
        principals, changes = map(int, case.split(" "))
        names = [f"client{number:05}" for number in range(principals)]
        text = configuration_of(reversed(names))
        kvnos = range(2, changes + 2)
        journal = b"".join(keys_record(CHANGE, name, kvno, ITERATIONS, KEYS) for kvno in kvnos for name in names)
        printed = [self.told(text, journal, form) for form in ("lines", "keys", "configuration")]
        sizes = " ".join(str(len(it)) for it in printed)
        return f"{case}: {printed[0].splitlines()[-1]}\nbytes {sizes}\n{self.likeness(printed[2], text, journal)}"

    def test_tables(self):
        for block in blocks_of("tables"):
            if block.kind == "made":
                found = map(self.made, block.body.split("\n"))
            else:
                text, cases = block.body.split("\n--\n")
                found = (self.answer(text, case) if is_case(case) else case for case in cases.split("\n"))
            self.tell_same(block.title, "\n".join(found), block.answer)


class Journals(TableCase):
    def held(self, text, journal):
        """What stands in a journal and what the table then has, in words; and the table. Or the fault, and no table."""
        errors, lines = self.table(text, journal)
        if not lines:
            return errors[0], None
        torn = [line.removeprefix("a torn record begins after ").removesuffix(" bytes") for line in errors]
        kept = f"{torn[0]} torn" if torn else f"{len(journal)} whole"
        *rows, last = lines.splitlines()
        versions = [" ".join(row.split(" ")[:3:2]) for row in rows]
        shown = " ".join(versions) or "nobody" if len(rows) <= FEW else f"{len(rows)} principals"
        table = tomllib.loads(self.table(text, journal, "configuration")[1])
        count = table["policy"]["iterations"]
        shown += "" if count == ITERATIONS else f" count {count}"
        return f"records {last.split(' ')[-1]} kept {kept}, {shown}", table

    def compared(self, text, journal, written):
        """Likewise, and what of alice's keys isn't what was written."""
        told, table = self.held(text, journal)
        if table is None:
            return told
        for one, other in zip(keys_of(written), keys_of(table)):
            other_parts = [words for part, words in PARTS.items() if one[part] != other[part]]
            if one["kvno"] == other["kvno"] and other_parts:
                return f"{told}, another {other_parts[0]} of kvno {one['kvno']}"
        return told

    def changed(self, what, journal):
        """With this change at each place of a journal, in a table that keeps the four newest keys of a name."""
        text = configuration_of(NAMES, depth=4)
        written = self.held(text, journal)[1]
        others = (changed(what, journal, place) for place in range(len(journal)))
        return self.census(lambda it: "left out" if it is None else self.compared(text, it, written), others)

    def test_journals(self):
        for case, answer in lines_of("journals"):
            what, _, pieces = case.rpartition(": ")
            journal = journal_of(pieces)
            found = self.changed(what, journal) if what else self.held(configuration_of(NAMES), journal)[0]
            self.tell_same(case[:SHOWN], found, answer)


if __name__ == "__main__":
    main(__doc__)

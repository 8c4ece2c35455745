"""What `drill` and `check` print, and how they end: of scripts and configurations whole, changed at many places, and of bytes that
aren't text.

`cases/commands` has blocks:

    drill        a script
    drill-cut    without its last newline
    check        a configuration: the line, the status, and the fault in words
    base         what the blocks below change
    lines        each line after it, before `show alice`
    edits        `OLD -> NEW`, with `|` between: the line
    explained    likewise: the explanation, too
    bytes        hexadecimal, as script and configuration

In lines and edits `;` is a newline; `N * TEXT` repeats.
"""

from harness.cases import main
from tests.case_files import FileCase, blocks_of, edited, expanded


class Commands(FileCase):
    def drill(self, script):
        """What a script prints, and how it ends."""
        printed, errors, status = self.ran(["drill"], {}, script)
        endings = {0: ["ends"], 1: errors}
        return printed, "\n".join(endings.get(status, [f"status {status}"]))

    def check(self, text):
        """The line about a configuration, its status, and the fault in words, if it has one."""
        printed, errors, status = self.ran(["check", "--config", "configuration"], {"configuration": text})
        words = [line.removeprefix("configuration: ") for line in errors] if status else []
        return printed.removesuffix("\n"), status, "".join(f"\n    {line}" for line in words)

    def line(self, base, line):
        """A line by itself after the base, and how many lines the script prints before it ends."""
        printed, ending = self.drill("\n".join([*([base] if base else []), expanded(line), "show alice\n"]).encode())
        lines = printed.count("\n")
        return f"{line}: {ending} after {lines} lines" if lines else f"{line}: {ending}"

    def edit(self, base, line, in_words):
        text = edited(base, line)
        if text == base:
            return f"{line}: nothing is changed"
        found, _, words = self.check(text.encode())
        return f"{line}: {found}{words if in_words else ''}"

    def bytes(self, line):
        octets = bytes.fromhex(line)
        printed, ending = self.drill(octets)
        found, status, _ = self.check(octets)
        return f"{line}: {ending}; {printed}{found}, status {status}"

    def answer(self, kind, base, body):
        """The answer to a block that stands by itself, or the answers to its lines."""
        if kind == "check":
            found, status, words = self.check(body.encode())
            return f"{found}\nstatus {status}{words}"
        if kind in ("drill", "drill-cut"):
            return "".join(self.drill((body if kind == "drill-cut" else f"{body}\n").encode()))
        lines = body.split("\n")
        if kind == "lines":
            return "\n".join(self.line(base, line) for line in lines)
        if kind == "bytes":
            return "\n".join(map(self.bytes, lines))
        return "\n".join(self.edit(base, line, kind == "explained") for line in lines)

    def test_blocks(self):
        base = None
        for block in blocks_of("commands"):
            if block.kind == "base":
                base = block.body
            else:
                self.tell_same(block.title, self.answer(block.kind, base, block.body), block.answer)


if __name__ == "__main__":
    main(__doc__)

"""Blocks of commands in README.md and docs/ADMIN.md, and the scripts of samples/drill/, print what stands there.

A block whose info string is `sh sample` is run by bash in a copy of samples/ that is removed afterwards, with the program
on the PATH as chpw_server; `samples/FILE` is `FILE` there. A port that is named is replaced by a free one. There are two
forms:

- Commands and what they print, in one block. A line that begins with `$ ` is a command, and goes on after a backslash. The
  lines up to the next one are what it prints, on standard output and on standard error. `status N` as the last of them is
  its status; 0 where there is none. A command that ends with `&` goes on: what it prints later stands after the command
  that was run then.
- Commands alone, run as `bash -eu` runs a script, which has to end with status 0. The block `text` after it has what
  stands on standard output then.

A block whose info string is `toml sample` says what samples/realm.toml says.
"""

import os
import pathlib
import re
import shutil
import signal
import socket
import subprocess
import tempfile
import time

from .tree import TOP

try:
    import tomllib
except ImportError:  # before Python 3.11: the text is compared
    tomllib = None

DOCUMENTS = ("README.md", "docs/ADMIN.md")
PATIENCE = 60
PORT = re.compile(r"--port (\d+)")


def check(tree, faults):
    for document in filter(None, map(tree.document, DOCUMENTS)):
        for place, (number, info, block) in enumerate(document.blocks):
            behind = document.blocks[place + 1 : place + 2]
            if info.split() == ["toml", "sample"]:
                same = is_realm("\n".join(block))
                faults.check(same, f"{document.name}:{number}", "says something else than samples/realm.toml")
            if info.split() == ["sh", "sample"] and tree.program is not None:
                wanted = behind[0][2] if behind and behind[0][1] == "text" else None
                with tempfile.TemporaryDirectory(prefix="sample-") as top:
                    wrong = Sample(pathlib.Path(top), tree.program, block, wanted).run()
                faults.check(wrong is None, f"{document.name}:{number}", wrong)
    if tree.program is not None:
        check_drill(tree, faults)


def check_drill(tree, faults):
    for script in sorted((TOP / "samples/drill").glob("*.script")):
        with open(script, "rb") as words:
            run = subprocess.run([pathlib.Path(tree.program).resolve(), "drill"], stdin=words, capture_output=True,
                                 timeout=PATIENCE, check=False)
        same = run.returncode == 0 and run.stdout == script.with_suffix(".expected").read_bytes()
        faults.check(same, str(script.relative_to(TOP)), "prints something else than its .expected has")


def is_realm(text):
    """Whether a configuration says what the sample says."""
    realm = (TOP / "samples/realm.toml").read_text()
    if tomllib is None:
        return text.strip() == realm.strip()
    return tomllib.loads(text) == tomllib.loads(realm)


def commands(block):
    """The commands of a block, each with the lines after it and the status."""
    found, goes_on = [], False
    for line in block:
        if goes_on:
            found[-1][0] += "\n" + line
        elif line.startswith("$ "):
            found.append([line[2:], [], 0])
        elif found:
            found[-1][1].append(line)
        goes_on = (goes_on or line.startswith("$ ")) and line.endswith("\\")
    for it in found:
        while it[1] and not it[1][-1].strip():
            it[1].pop()
        match = re.fullmatch(r"status (\d+)", it[1][-1]) if it[1] else None
        if match:
            it[1].pop()
            it[2] = int(match[1])
    return found


class Sample:
    """A block that is run."""

    def __init__(self, top, program, block, wanted=None):
        self.home, self.output = top / "samples", top / "output"
        shutil.copytree(TOP / "samples", self.home)
        (self.home / "samples").symlink_to(".")
        (top / "bin").mkdir()
        (top / "bin/chpw_server").symlink_to(pathlib.Path(program).resolve())
        path = f"{top / 'bin'}:{os.environ['PATH']}"
        self.env = dict(os.environ, PATH=path, LC_ALL="C.UTF-8", TMPDIR=str(top))
        self.text, self.wanted = "\n".join(block), "\n".join(wanted or ())
        for port in dict.fromkeys(PORT.findall(self.text)):
            free = str(free_port())
            self.text, self.wanted = (re.sub(rf"\b{port}\b", free, it) for it in (self.text, self.wanted))
        self.commands = commands(self.text.split("\n"))
        self.read = 0

    def run(self):
        """What is wrong with it, or nothing."""
        if not self.commands:
            return self.run_script()
        with open(self.output, "wb") as output:
            bash = subprocess.Popen(["bash"], cwd=self.home, env=self.env, stdin=subprocess.PIPE, stdout=output,
                                    stderr=output, start_new_session=True)
        try:
            return self.try_all(bash)
        finally:
            end_all(bash)

    def run_script(self):
        """The same of commands alone."""
        bash = subprocess.Popen(["bash", "-eu", "-c", self.text], cwd=self.home, env=self.env, stdin=subprocess.DEVNULL,
                                stdout=subprocess.PIPE, stderr=subprocess.PIPE, start_new_session=True, text=True)
        try:
            output, errors = bash.communicate(timeout=PATIENCE)
        except subprocess.TimeoutExpired:
            return f"no end after {PATIENCE} seconds"
        finally:
            end_all(bash)
        if bash.returncode:
            return f"status {bash.returncode}: {errors.strip()}"
        if output.splitlines() != self.wanted.splitlines():
            return f"printed {output.splitlines()} and not {self.wanted.splitlines()}"
        return None

    def try_all(self, bash):
        runs_on = False
        for place, (command, wanted, status) in enumerate(self.commands):
            is_last = place == len(self.commands) - 1
            goes_on = command.rstrip().endswith("&")
            runs_on = runs_on or goes_on
            behind = "wait\n" if is_last else ""
            end = "" if goes_on and not is_last else f"__status=$?\n{behind}echo \"==ended $__status\"\n"
            bash.stdin.write(f"{command}\n{end}".encode())
            bash.stdin.flush()
            lines, got = self.wait_for(len(wanted), bool(end))
            if end and got is None:
                return f"no end after {PATIENCE} seconds: {command}"
            if got is not None and got != status:
                return f"status {got} and not {status}: {command}"
            same = sorted(lines) == sorted(wanted) if runs_on else lines == wanted
            if not same:
                return f"{command}: printed {lines} and not {wanted}"
        return None

    def wait_for(self, count, has_end):
        """The lines that a command prints, and its status where it has ended."""
        until = time.monotonic() + PATIENCE
        while True:
            lines = self.output.read_text(errors="replace").split("\n")[self.read : -1]
            ends = [number for number, line in enumerate(lines) if line.startswith("==ended ")]
            if ends:
                self.read += ends[0] + 1
                return lines[: ends[0]], int(lines[ends[0]].split()[1])
            if (not has_end and len(lines) >= count) or time.monotonic() > until:
                self.read += len(lines)
                return lines, None
            time.sleep(0.02)


def end_all(bash):
    """Ends the shell and whatever it has left."""
    try:
        os.killpg(bash.pid, signal.SIGKILL)
    except ProcessLookupError:
        pass
    bash.wait()


def free_port():
    with socket.socket() as it:
        it.bind(("127.0.0.1", 0))
        return it.getsockname()[1]

"""Databases in other folders than the realm's: which one an agent opens, and what it tells of one that it may not read or write."""

import contextlib
import os
import pathlib
import re
import shutil
import subprocess
import tempfile

from tests.kdc.agent_case import FIRST, AgentCase
from tests.kdc.agent_database import is_root
from tests.kdc.agent_process import Agent, hexed, keys_of, without_rights
from tests.kdc.at_kdc import at

READ_ONLY = """\
#!/bin/sh
exec unshare --mount {more} sh -ec 'mount --bind "$0" "$0"; mount -o remount,bind,ro "$0"; exec "$@"' {folder} {agent} "$@"
"""


class AgentElsewhere(AgentCase):
    @contextlib.contextmanager
    def another(self):
        """A copy of the database in a folder of its own: the folder, and the environment by which it is the one."""
        folder = pathlib.Path(tempfile.mkdtemp(prefix="agent_"))
        try:
            yield folder, self.configured(folder, self.kdc.copy(folder))
        finally:
            folder.chmod(0o700)
            shutil.rmtree(folder)

    def configured(self, folder, database):
        """A configuration with that database, for an agent and the project's programs."""
        old, config = self.realm.folder, self.realm.folder / f"{folder.name}.conf"
        if self.realm.KIND == "MIT":
            text = (old / "kdc.conf").read_text()
            config.write_text(text.replace(f"database_name = {old}/principal", f"database_name = {database}"))
            return {"KRB5_KDC_PROFILE": str(config)}
        text = (old / "krb5.conf").read_text().replace(f"dbname = {old}/heimdal", f"dbname = {database}")
        config.write_text(text.replace(f"log_file = {old}/log", f"log_file = {folder}/log"))
        shutil.copy(old / "log", folder)
        return {"KRB5_CONFIG": str(config)}

    def files(self, folder):
        return sorted(file for file in folder.iterdir() if file.is_file())

    # ---- the configuration that the agent is started with names it

    def test_a_database_elsewhere(self):
        name = self.name()
        with self.another() as (_, more):
            self.is_the_one("elsewhere", name, more)

    @at("MIT")
    def test_named_by_its_module(self):
        """In [dbmodules], and not in the realm's own words."""
        name = self.name()
        with self.another() as (folder, more):
            config = pathlib.Path(more["KRB5_KDC_PROFILE"])
            text = config.read_text().replace(f"database_name = {folder}/principal", "database_module = files")
            module = f"    files = {{\n        db_library = db2\n        database_name = {folder}/principal\n    }}\n"
            config.write_text(text.replace("[dbmodules]\n", f"[dbmodules]\n{module}"))
            self.is_the_one("named by its module", name, more)

    def is_the_one(self, what, name, more):
        with self.talking(**more) as line:
            self.tell(f"a database {what}: put", line.put(name, 2, "Elsewhere-pass2"), f"put {hexed(name)} 2")
            self.tell("  versions there and in the usual one", (self.versions(name, more), self.realm.kvno(name)), ({2}, 1))
            self.realm.set_password("mallory", FIRST)
            self.tell("  of a write into the usual one nothing is told", line.quiet())
            self.write(name, more)
            self.tell("  of one into its own it is", line.told())

    def write(self, name, more):
        """By the project's own program, into the other database."""
        if self.realm.KIND == "MIT":
            self.realm.run(self.realm.mit, ["kadmin.local", "cpw", "-pw", FIRST, name], **more)
        else:
            self.realm.run(["kadmin.heimdal", "-l", "passwd", f"--password={FIRST}", name], **more)

    def versions(self, name, more):
        """Which ones the other database has."""
        if self.realm.KIND == "MIT":
            text = self.realm.run(self.realm.mit, ["kadmin.local", "getprinc", name], **more).stdout
        else:
            text = self.realm.run(["kadmin.heimdal", "-l", "get", name], **more).stdout
        return {int(kvno) for kvno in re.findall(r"^(?:Key: vno| *Kvno:) (\d+)", text, re.MULTILINE)}

    # ---- it may not read or write it

    def tells_once(self, agent, words, path):
        """One line with these words and that path before it listens, and none since."""
        *lines, last = agent.all_lines
        found = [all(it in line for it in (*words, str(path))) for line in lines]
        self.tell(f"  told in one line: {', '.join(words)}", (found, last), ([True], "listening"))

    def is_refused(self, line, name, reason):
        """Whether it puts nothing, and says why, however often it is asked."""
        answers = [line.put(name, 2, "Next-pass2") for _ in range(3)]
        wanted = f"failed {hexed(name)} {reason}"[:len(f"failed {hexed(name)} ") + 109]
        self.tell("  put, three times", answers, [wanted] * 3)

    def test_a_folder_that_is_none(self):
        """The configuration names another one than that of the database."""
        name = self.name()
        with self.another() as (folder, more):
            [config] = map(pathlib.Path, more.values())
            text, data = config.read_text(), self.files(folder)[0].with_suffix("")
            config.write_text(text.replace(str(data), f"{folder}/none/{data.name}"))
            with self.talking(**more) as line:
                words, answer = "No such file or directory", line.ask(f"get {hexed(name)}")
                self.tell("a folder that is none: get", (answer.split()[0], words in answer), ("failed", True))
                self.tells_once(line.agent, ["the database can't be opened", words], f"{folder}/none/{data.name}")
                (folder / "none").mkdir()
                for file in self.files(folder):
                    shutil.copy(file, folder / "none")
                self.tell("  it is there: put", line.put(name, 2, "Next-pass2"), f"put {hexed(name)} 2")

    def test_files_of_another_mode(self):
        name = self.name()
        with self.another() as (folder, more):
            for file in self.files(folder):
                file.chmod(0o400)
            with self.talking(before=without_rights, **more) as line:
                data = self.files(folder)[0]
                found = line.ask(f"get {hexed(name)}")
                self.tell("files that it may only read: get", found, f"has {hexed(name)} 1 {keys_of(name, FIRST)}")
                self.is_refused(line, name, f"Permission denied: {data}")
                self.tells_once(line.agent, ["the database can't be written", "Permission denied"], data)
                for file in self.files(folder):
                    file.chmod(0o600)
                self.tell("  it may write them: put", line.put(name, 2, "Next-pass2"), f"put {hexed(name)} 2")

    def test_a_closed_folder(self):
        """As users' own folders are to the unit."""
        name = self.name()
        with self.another() as (folder, more):
            data = self.files(folder)[0].with_suffix("")
            folder.chmod(0)
            with self.talking(before=without_rights, **more) as line:
                answers = [line.ask(it) for it in (f"get {hexed(name)}", "list keys")]
                found = [(it.split()[0], str(data) in it, "Permission denied" in it) for it in answers]
                self.tell("a folder that it may not enter: get, list", found, [("failed", True, True)] * 2)
                self.tells_once(line.agent, ["the database can't be opened", "Permission denied"], data)
                folder.chmod(0o700)
                self.tell("  it may enter: put", line.put(name, 2, "Next-pass2"), f"put {hexed(name)} 2")

    def test_a_read_only_folder(self):
        """As those are to the unit that it doesn't name."""
        name = self.name()
        with self.another() as (folder, more):
            wrapper = self.read_only(folder, self.realm.agent()[0])
            if wrapper is None:
                print("this machine makes no read-only folder for the agent: none is tried", flush=True)
                return
            data = self.files(folder)[0]
            with Agent(self.realm, program=wrapper, **more) as agent, agent.connected() as line:
                self.tell("a read-only folder: list", f"has {hexed(name)} 1" in line.listed())
                reason = f"Read-only file system: {data}; set ReadWritePaths of the unit"
                self.is_refused(line, name, reason)
                self.tells_once(agent, ["the database can't be written", reason], data)
            self.tell("  nothing was written", self.versions(name, more), {1})

    def read_only(self, folder, agent):
        """A program that is the agent, and for which that folder is read-only; None where there is no such thing."""
        more = "" if is_root() else "--user --map-current-user --keep-caps"
        wrapper = self.realm.folder / "read-only"
        for program in ("touch", agent):
            wrapper.write_text(READ_ONLY.format(more=more, folder=folder, agent=program))
            wrapper.chmod(0o700)
            if program == "touch":
                done = subprocess.run([wrapper, folder / "file"], capture_output=True, text=True, env={**os.environ, "LC_ALL": "C"})
                if "Read-only file system" not in done.stderr:
                    return None
        return str(wrapper)

"""What the cases of an agent do at a KDC's database beside it, and see there, by the project's own programs."""

import os
import re
import shutil

from harness.heimdal_realm import escaped
from harness.realm import REALM, Failed

FIRST = "Old-pass1"

# of Heimdal's entries: HDBFlags, and the extensions of HDB-extension
IMMUTABLE = 1 << 13
LM_OWF, PASSWORD, LAST_CHANGE, HISTORY = 4, 5, 7, 9


def named(line):
    """The name of a line that begins with it, without the realm's; None where it has another realm."""
    name, _, realm = line.partition("@")
    return name.replace("\\ ", " ") if realm == REALM else None


class MitDatabase:
    def __init__(self, realm):
        self.realm = realm

    def kadmin(self, *words):
        done = self.realm.run(self.realm.mit, ["kadmin.local", *words])
        if done.returncode != 0:
            raise Failed(f"{words}: {done.stdout}{done.stderr}")
        return done.stdout

    def util(self, *words, lines=()):
        done = self.realm.run(self.realm.mit, ["kdb5_util", *words], lines)
        if done.returncode != 0:
            raise Failed(f"{words}: {done.stdout}{done.stderr}")
        return done.stdout

    def entry(self, name):
        """What getprinc prints."""
        return self.kadmin("getprinc", name)

    def listed(self):
        """Each principal with its newest version."""
        found = dict.fromkeys(filter(None, map(named, self.kadmin("listprincs").splitlines())), 0)
        for line in self.util("tabdump", "-n", "keyinfo").splitlines()[1:]:
            name, _, kvno, *_ = line.split("\t")
            if (short := named(name)) is not None:
                found[short] = max(found[short], int(kvno))
        return found

    def project(self, command, name, **more):
        """What kadmin.local prints with that environment, of an entry or of a change of its password."""
        words = {"get": ["getprinc"], "change": ["cpw", "-pw", FIRST]}[command]
        return self.realm.run(self.realm.mit, ["kadmin.local", *words, name], **more).stdout

    def shows_version(self, kvno, text):
        return text.count(f"Key: vno {kvno},") == 2

    def configured(self, folder, database):
        """What an agent is started with for that database; the configuration is made in that folder."""
        old, config = self.realm.folder, folder / "conf"
        config.write_text((old / "kdc.conf").read_text().replace(f"database_name = {old}/principal", f'database_name = "{database}"'))
        return {"KRB5_KDC_PROFILE": str(config)}

    def multiply(self, name, count, **more):
        """So many principals as that one, in the database of that environment; their names have the same length."""
        path = self.realm.folder / "many"
        self.util("dump", str(path), f"{name}@{REALM}")
        head, line = path.read_text().splitlines()
        names = [f"many{number:0{len(name) - 4}}" for number in range(count)]
        path.write_text("\n".join([head, *(line.replace(f"\t{name}@", f"\t{it}@") for it in names)]) + "\n")
        self.realm.run(self.realm.mit, ["kdb5_util", "load", "-update", str(path)], **more)

    def add_weak(self, name, password):
        self.kadmin("addprinc", "-e", "aes256-cts:normal", "-pw", password, name)

    def add_with(self, name, password, etype):
        """A principal with a key of that type alone."""
        self.kadmin("addprinc", "-e", f"{etype}:normal", "-pw", password, name)

    def give_policy(self, name):
        """One with a longest life."""
        self.kadmin("modprinc", "-policy", "usual", name)

    def add_keyless(self, name, _):
        self.kadmin("addprinc", "-nokey", name)

    def keep_and_set(self, name, password, etype=None):
        """Another password, beside the former version's keys; with a key of that type alone, where one is named."""
        self.kadmin("cpw", "-keepold", *(["-e", f"{etype}:normal"] if etype else []), "-pw", password, name)

    def line(self, name):
        """The entry's line of a dump."""
        return self.lines(name)[1]

    def lines(self, name):
        path = self.realm.folder / "dumped"
        self.util("dump", str(path), f"{name}@{REALM}")
        return path.read_text().splitlines()

    def edit(self, name, change):
        """Puts an entry in its place whose line of a dump is changed."""
        path = self.realm.folder / "edited"
        head, line = self.lines(name)
        path.write_text(f"{head}\n{change(line)}\n")
        self.util("load", "-update", str(path))

    def damages(self):
        """Changes of an entry's line by which its keys can't be read: of a key's length before the sealed bytes, and of these."""
        return [
            lambda line: re.sub(r"\t(1[78])\t(\d+)\t[0-9a-f]{4}", r"\t\1\t\2\tffff", line),
            lambda line: re.sub(r"\t(1[78])\t(\d+)\t([0-9a-f]{20})[0-9a-f]{8}", r"\t\1\t\2\t\3ffffffff", line),
        ]

    def lose_master_key(self, name):
        """Names a master key that there isn't, in the note 8."""
        self.edit(name, lambda line: re.sub(r"\t8\t2\t[0-9a-f]{4}\t", "\t8\t2\t9900\t", line))

    def set_kvno(self, name, kvno):
        """The version of its keys of AES, which stand after two words of their form."""
        self.edit(name, lambda line: re.sub(r"\t1\t\d+\t(1[78]\t\d+\t)", rf"\t1\t{kvno}\t\1", line))

    def add_salted(self, name, password):
        self.kadmin("addprinc", "-e", "aes256-cts:norealm,aes128-cts:norealm", "-pw", password, name)

    def lock_down(self, name):
        self.kadmin("modprinc", "+lockdown_keys", name)

    def aliases(self, *_):
        return []

    def dump(self, path):
        self.util("dump", str(path))

    def load(self, path):
        self.util("load", str(path))

    def files(self):
        return list(self.realm.folder.glob("principal*"))

    def copy(self, folder):
        """A copy of the database in another folder, by its name there."""
        for file in self.files():
            shutil.copy(file, folder)
        return folder / "principal"


class HeimdalDatabase:
    def __init__(self, realm):
        self.realm = realm

    def kadmin(self, *words):
        return self.realm.kadmin(*words)

    def entry(self, name):
        return self.kadmin("get", escaped(name))

    def listed(self):
        pairs = [re.match(r"(.*?@\S+) (\d+):", line).groups() for line in self.lines()]
        return {short: int(kvno) for name, kvno in pairs if (short := named(name)) is not None}

    def project(self, command, name, **more):
        """What `kadmin -l` prints with that environment, of an entry or of a change of its password."""
        words = {"get": ["get"], "change": ["passwd", f"--password={FIRST}"]}[command]
        return self.realm.run(["kadmin.heimdal", "-l", *words, name], **more).stdout

    def shows_version(self, kvno, text):
        return f"Kvno: {kvno}\n" in text

    def configured(self, folder, database):
        """What an agent is started with for that database; the configuration is made in that folder, with a log of its own."""
        old, config = self.realm.folder, folder / "conf"
        text = (old / "krb5.conf").read_text().replace(f"dbname = {old}/heimdal", f"dbname = {database}")
        config.write_text(text.replace(f"log_file = {old}/log", f"log_file = {folder}/log"))
        shutil.copy(old / "log", folder)
        return {"KRB5_CONFIG": str(config)}

    def multiply(self, name, count, **more):
        """So many principals as that one, in the database of that environment."""
        path, line = self.realm.folder / "many", self.line(name)
        path.write_text("".join(line.replace(name, f"many{number}") + "\n" for number in range(count)))
        self.realm.run(["kadmin.heimdal", "-l", "merge", str(path)], **more)

    def add_weak(self, name, password):
        self.realm.add(name, password)
        self.kadmin("del_enctype", name, "aes128-cts-hmac-sha1-96")

    def add_with(self, name, password, etype):
        """A principal with a key of that type, and with none of the other of AES."""
        self.realm.add(name, password)
        self.kadmin("del_enctype", name, *({"aes256-cts-hmac-sha1-96", "aes128-cts-hmac-sha1-96", "arcfour-hmac-md5"} - {etype}))

    def give_policy(self, name):
        """None: this kadmin doesn't let anybody set one."""

    def add_keyless(self, name, password):
        self.add_with(name, password, None)

    def keep_and_set(self, name, password, etype=None):
        """Another password, beside the former version's keys; with a key of that type alone, where one is named."""
        self.kadmin("passwd", "--keepold", f"--password={password}", name)
        if etype:
            self.kadmin("del_enctype", name, *({"aes256-cts-hmac-sha1-96", "aes128-cts-hmac-sha1-96", "arcfour-hmac-md5"} - {etype}))

    def damages(self):
        """Changes of an entry's line by which its keys can't be read: of the sealed bytes, of their number, and of a key's type
        to one that nobody knows."""
        return [
            lambda line: re.sub(r":1:(1[78]):\w{8}", r":1:\1:FFFFFFFF", line),
            lambda line: re.sub(r":1:(1[78]):\w+", r":1:\1:FFFF", line),
            lambda line: line.replace(":1:23:", ":1:9999:"),
        ]

    def lose_master_key(self, name):
        """Names a master key that there isn't."""
        self.edit(name, lambda line: re.sub(r":1:(1[78]|23):", r":99:\1:", line))

    def add_salted(self, name, password):
        self.realm.add(name, password)
        self.edit(name, lambda line: line.replace(f'3/"{REALM}{name}"', f'3/"{REALM}other"'))

    def lock_down(self, name):
        self.edit(name, lambda line: changed(line, 9, lambda flags: str(int(flags) | IMMUTABLE)))

    def set_kvno(self, name, kvno):
        self.edit(name, lambda line: re.sub(r"^(\S+) \d+:", rf"\1 {kvno}:", line))

    def aliases(self, *names):
        made = []
        for count, name in enumerate(names):
            self.kadmin("modify", f"--alias=alias{count}", name)
            made.append(f"alias{count}")
        return made

    def lines(self):
        path = self.realm.folder / "dumped"
        self.kadmin("dump", str(path))
        return path.read_text().splitlines()

    def line(self, name):
        """The entry's line of a dump."""
        [line] = [line for line in self.lines() if line.startswith(f"{name}@{REALM} ")]
        return line

    def edit(self, name, change):
        """Puts an entry in its place whose line of a dump is changed."""
        path = self.realm.folder / "edited"
        path.write_text(change(self.line(name)) + "\n")
        self.kadmin("merge", str(path))

    def extensions(self, name):
        """The bytes of each extension of the entry, by its number."""
        words = self.line(name).split()[-1]
        return {} if words == "-" else dict(extension(bytes.fromhex(word)) for word in words.split(":"))

    def dump(self, path):
        self.kadmin("dump", str(path))

    def load(self, path):
        self.kadmin("load", str(path))

    def files(self):
        return list(self.realm.folder.glob("heimdal*"))

    def copy(self, folder):
        for file in self.files():
            shutil.copy(file, folder)
        return folder / "heimdal"


def changed(line, place, change):
    """The line with another word at that place."""
    words = line.split(" ")
    words[place] = change(words[place])
    return " ".join(words)


def extension(data):
    """HDB-extension: SEQUENCE { mandatory [0] BOOLEAN, data [1] CHOICE }; the CHOICE's number and bytes."""
    rest = value_of(data)
    rest = rest[len(value_of(rest)) + rest.index(value_of(rest)):]
    choice = value_of(rest)
    return choice[0] & 31, value_of(choice)


def value_of(data):
    """The bytes of a DER value."""
    length, start = data[1], 2
    if length & 128:
        start += length & 127
        length = int.from_bytes(data[2:start], "big")
    return data[start : start + length]


def database_of(realm):
    return MitDatabase(realm) if realm.KIND == "MIT" else HeimdalDatabase(realm)


def is_root():
    return os.geteuid() == 0

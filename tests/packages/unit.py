"""What systemd makes of a unit, as far as the packages' units need it, for services in a root where no systemd runs.

A unit is started by its ExecStart, in a mount namespace of its own, with the user, group, umask, capabilities, limits,
directories and read-only paths that it names. Of the rest (system calls, namespaces, kernel tunables ..) nothing is set.
"""

import pathlib
import re
import resource
import shlex
import signal
import subprocess
import threading
import time

PLACES = ("usr/lib/systemd/system", "etc/systemd/system")
FOLDERS = {"StateDirectory": "var/lib", "LogsDirectory": "var/log", "RuntimeDirectory": "run"}
LIMITS = {"LimitNOFILE": "--nofile", "LimitCORE": "--core", "LimitFSIZE": "--fsize"}
KINDS = {"LimitNOFILE": resource.RLIMIT_NOFILE, "LimitCORE": resource.RLIMIT_CORE, "LimitFSIZE": resource.RLIMIT_FSIZE}


def settings(text):
    """The settings of a file, as (section, name, value)."""
    section = None
    lines = "\n".join(line for line in text.splitlines() if not line.lstrip().startswith(("#", ";")))
    for line in lines.replace("\\\n", " ").splitlines():
        if line.startswith("["):
            section = line.strip("[] ")
        elif "=" in line:
            name, _, value = line.partition("=")
            yield section, name.strip(), value.strip()


class Unit:
    """A service of a root."""

    def __init__(self, root, name):
        self.root, self.name, self.process = root, name, None
        self.output = root.folder / "tmp" / f"{name}.output"
        self.values = {}
        files = [root.folder / place / name for place in PLACES]
        files += sorted(it for place in PLACES for it in (root.folder / place / f"{name}.d").glob("*.conf"))
        for file in files:
            if file.is_file() and not file.is_symlink():
                for _, key, value in settings(file.read_text()):
                    self.values.setdefault(key, []).append(value)
                    if value == "":
                        self.values[key] = []

    def one(self, key, default=""):
        return (self.values.get(key) or [default])[-1]

    # ---- words of its commands

    def environment(self):
        found = {"PATH": "/usr/sbin:/usr/bin:/sbin:/bin", "LC_ALL": "C.UTF-8"}
        for value in self.values.get("Environment", ()):
            found.update(word.split("=", 1) for word in shlex.split(value))
        for value in self.values.get("EnvironmentFile", ()):
            file = self.root.folder / value.lstrip("-/")
            if file.is_file():
                for line in file.read_text().splitlines():
                    if re.match(r"\w+=", line):
                        name, _, text = line.partition("=")
                        found[name] = " ".join(shlex.split(text)) if text[:1] in "'\"" else text.strip()
        if self.process:
            found["MAINPID"] = str(self.process.pid)
        return found

    def words(self, command):
        known = self.environment()
        for word in shlex.split(command):
            if re.fullmatch(r"\$\w+", word):
                yield from known.get(word[1:], "").split()
            else:
                yield re.sub(r"\$\{(\w+)\}", lambda it: known.get(it[1], ""), word)

    # ---- what is set for them

    def capabilities(self, key):
        names = self.one(key, None)
        return None if names is None else [it.removeprefix("CAP_").lower() for it in names.split()]

    def limit(self, key):
        """What a limit becomes: the unit's, or, where the right to raise it is missing, the nearest, as with systemd."""
        value = resource.RLIM_INFINITY if self.one(key) == "infinity" else int(self.one(key))
        highest = resource.getrlimit(KINDS[key])[1]
        if value == highest or highest == resource.RLIM_INFINITY or 0 <= value <= highest:
            return value
        words = ["prlimit", self.limit_word(key, value), "true"]
        may = subprocess.run(words, stderr=subprocess.DEVNULL, check=False).returncode == 0
        return value if may else highest

    @staticmethod
    def limit_word(key, value):
        word = "unlimited" if value == resource.RLIM_INFINITY else value
        return f"{LIMITS[key]}={word}:{word}"

    def as_user(self):
        """The command by which another one runs as the unit's user, with its limits."""
        user, group = self.one("User", "root"), self.one("Group", "") or self.one("User", "root")
        words = ["setpriv", f"--reuid={user}", f"--regid={group}", "--init-groups"]
        bounding, ambient = self.capabilities("CapabilityBoundingSet"), self.capabilities("AmbientCapabilities") or []
        if bounding is not None:
            words.append("--bounding-set=-all" + "".join(f",+{it}" for it in bounding))
        if user != "root":
            chosen = "-all" + "".join(f",+{it}" for it in ambient)
            words += [f"--inh-caps={chosen}", f"--ambient-caps={chosen}"]
        if self.one("NoNewPrivileges") == "yes":
            words.append("--no-new-privs")
        limits = [self.limit_word(key, self.limit(key)) for key in LIMITS if self.one(key)]
        return (["prlimit", *limits, "--"] if limits else []) + words + [
            "sh", "-c", 'umask "$1"; shift; exec "$@"', "sh", self.one("UMask", "0022")]

    def mounts(self):
        """The commands of the shell by which the unit's view of the files is made."""
        lines, top = ["mount --make-rprivate /"], self.root.folder
        if self.one("ProtectSystem") == "strict":
            writable = " ".join(self.values.get("ReadWritePaths", ())).split()
            writable += [f"/{FOLDERS[key]}/{self.one(key)}" for key in FOLDERS if self.one(key)]
            lines += [f"mount --bind {top}{it} {top}{it}" for it in writable]
            lines.append(f"mount -o remount,bind,ro {top}")
        if self.one("PrivateTmp") == "yes":
            lines.append(f"mount -t tmpfs tmpfs {top}/tmp")
        if self.one("ProtectHome") == "yes":
            lines += [f"mount -t tmpfs -o mode=0,ro tmpfs {top}/{it}" for it in ("root", "home")]
        return lines

    def make_folders(self):
        user, group = self.one("User", "root"), self.one("Group", "") or self.one("User", "root")
        for key, place in FOLDERS.items():
            if self.one(key):
                path = f"/{place}/{self.one(key)}"
                self.root.must("install", "-d", "-o", user, "-g", group, "-m", self.one(f"{key}Mode", "0755"), path)

    def launcher(self, command):
        net = ["--net"] if self.one("PrivateNetwork") == "yes" else []
        script = "; ".join(["set -e", *self.mounts(), 'exec chroot "$0" "$@"'])
        return ["unshare", "--mount", *net, "sh", "-c", script, self.root.folder, *self.as_user(), *self.words(command)]

    def run(self, key):
        """Runs the commands of that name, one after the other; the first status that isn't 0."""
        for line in self.values.get(key, ()):
            command = line.removeprefix("-")
            with self.output.open("a") as out:
                status = subprocess.run(self.launcher(command), env=self.environment(), stdin=subprocess.DEVNULL,
                                        stdout=out, stderr=out, timeout=60, check=False).returncode
            # with a dash before it its status counts as 0
            if status and command == line:
                return status
        return 0

    # ---- the commands of systemctl

    def is_active(self):
        return self.process is not None and self.process.poll() is None

    def start(self):
        """`started`, `skipped` by a condition, or `failed`. Whoever starts it waits for what it prints."""
        if self.is_active():
            return "started"
        for path in self.values.get("ConditionPathExists", ()):
            if not (self.root.folder / path.lstrip("/")).exists():
                return "skipped"
        self.process = None
        self.make_folders()
        self.output.write_text("")
        if self.run("ExecCondition"):
            return "skipped"
        if self.run("ExecStartPre"):
            return "failed"
        with self.output.open("a") as out:
            self.process = subprocess.Popen(self.launcher(self.one("ExecStart")), env=self.environment(),
                                            stdin=subprocess.DEVNULL, stdout=out, stderr=out, start_new_session=True)
        # it is waited for at once when it ends, so that `tail --pid` sees that
        threading.Thread(target=self.process.wait, daemon=True).start()
        return "started"

    def reload(self):
        return self.run("ExecReload")

    def stop(self):
        """The status with which it ended."""
        if not self.is_active():
            return None
        self.run("ExecStop")
        if self.is_active():
            self.process.send_signal(getattr(signal, self.one("KillSignal", "SIGTERM")))
        try:
            status = self.process.wait(float(self.one("TimeoutStopSec", "90")))
        except subprocess.TimeoutExpired:
            self.process.kill()
            status = self.process.wait()
        if self.one("RuntimeDirectory") and self.one("RuntimeDirectoryPreserve", "no") == "no":
            self.root.must("rm", "-rf", f"/run/{self.one('RuntimeDirectory')}")
        return status

    def says(self, words, seconds=20):
        """Whether it prints that within so many seconds, before it ends."""
        end = time.monotonic() + seconds
        while time.monotonic() < end:
            if words in self.output.read_text(errors="replace"):
                return True
            if not self.is_active():
                return words in self.output.read_text(errors="replace")
            time.sleep(0.05)
        return False


def path_of(folder, name):
    return any((pathlib.Path(folder) / place / name).is_file() for place in PLACES)

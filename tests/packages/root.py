"""A clean Debian in a folder, from Debian's packages by mmdebstrap, and what stands in for its systemd.

The root is kept as an archive, so that a second run unpacks it in seconds. Maintainer scripts find a `systemctl` there which
leaves links to the real one, and hands each command on a unit to this program, which starts and stops units as unit.py does.
"""

import os
import pathlib
import shutil
import socket
import subprocess
import tempfile
import threading

from tests.packages import unit

SUITE = "bookworm"
COMMON = ["systemd", "logrotate", "procps"]
KINDS = {
    "mit": [*COMMON, "krb5-kdc", "krb5-admin-server", "krb5-user"],
    "heimdal": [*COMMON, "heimdal-kdc", "heimdal-clients"],
    # of tests/clients/peers.py
    "peers": [*COMMON, "krb5-kdc", "krb5-admin-server", "krb5-user", "krb5-k5tls", "openssl", "python3-samba", "python3-cryptography",
              "python3-pyasn1", "python3-kerberos", "python3-kdcproxy", "tshark"],
}
CACHE = pathlib.Path(os.environ.get("BODDRELYN_ROOTS", pathlib.Path(tempfile.gettempdir()) / "boddrelyn-roots"))
SOCKET = "run/systemctl.socket"
SYSTEMCTL = f"""\
#!/usr/bin/perl
use IO::Socket::UNIX;
if (grep {{ /^(preset|enable|disable|mask|unmask|is-enabled)$/ }} @ARGV) {{
    $ENV{{SYSTEMD_OFFLINE}} = 1;
    exec '/usr/bin/systemctl', @ARGV;
}}
my $socket = IO::Socket::UNIX->new(Peer => '/{SOCKET}') or die "nobody runs units here\\n";
print $socket join("\\0", @ARGV), "\\n";
$socket->flush;
my ($status, @lines) = <$socket>;
print @lines;
exit $status;
"""


class Failed(Exception):
    """Something that the runs need couldn't be done."""


def archive(kind):
    """The archive of a root with the packages of that kind of KDC, made if there is none."""
    CACHE.mkdir(parents=True, exist_ok=True)
    file = CACHE / f"{SUITE}-{kind}.tar"
    if not file.is_file():
        print(f"-- {file} is made, which takes some minutes", flush=True)
        new = file.with_suffix(".new.tar")
        words = ["--quiet", "--variant=minbase", f"--include={','.join(KINDS[kind])}", SUITE, new]
        subprocess.run(["mmdebstrap", *words], stdin=subprocess.DEVNULL, check=True)
        new.rename(file)
    return file


class Root:
    """`with Root(kind) as root` unpacks it; it is gone afterwards, with all that runs in it."""

    def __init__(self, kind, keep=False):
        self.kind, self.archive, self.keep = kind, archive(kind), keep
        self.units, self.asked, self.others = {}, [], []

    def __enter__(self):
        self.folder = pathlib.Path(tempfile.mkdtemp(prefix="boddrelyn-root-"))
        try:
            self.folder.chmod(0o755)
            subprocess.run(["mount", "--bind", self.folder, self.folder], check=True)
            subprocess.run(["tar", "-C", self.folder, "-xf", self.archive, "--exclude=./dev/*"], check=True)
            subprocess.run(["mount", "-t", "proc", "proc", self.folder / "proc"], check=True)
            subprocess.run(["mount", "--bind", "/dev", self.folder / "dev"], check=True)
            self.prepare()
        except BaseException:
            self.__exit__()
            raise
        return self

    def prepare(self):
        (self.folder / "etc/hosts").write_text("127.0.0.1 localhost kdc1.example.com\n")
        (self.folder / "usr/sbin/policy-rc.d").unlink(missing_ok=True)
        (self.folder / "run/systemd/system").mkdir(parents=True)
        systemctl = self.folder / "usr/local/bin/systemctl"
        systemctl.write_text(SYSTEMCTL)
        systemctl.chmod(0o755)
        self.listener = socket.socket(socket.AF_UNIX)
        self.listener.bind(str(self.folder / SOCKET))
        self.listener.listen()
        threading.Thread(target=self.take_commands, daemon=True).start()

    def leave(self):
        """What stands in for systemd goes, so that the real one may run there."""
        self.listener.close()
        for place in ("dev", "proc"):
            subprocess.run(["umount", "--lazy", self.folder / place], check=True)
        shutil.rmtree(self.folder / "run", ignore_errors=True)
        (self.folder / "run").mkdir()

    def __exit__(self, *_):
        for process in [it.process for it in self.units.values() if it.is_active()] + self.others:
            process.kill()
            process.wait()
        for place in ("dev", "proc", ""):
            subprocess.run(["umount", "--lazy", self.folder / place], stderr=subprocess.DEVNULL, check=False)
        if self.keep:
            print(f"kept: {self.folder}")
        else:
            shutil.rmtree(self.folder, ignore_errors=True)

    # ---- commands in it

    def run(self, *words, lines=(), **environment):
        """Runs a command there as root, the lines as its input."""
        known = {"PATH": "/usr/local/sbin:/usr/local/bin:/usr/sbin:/usr/bin:/sbin:/bin", "LC_ALL": "C.UTF-8", "TZ": "UTC",
                 "HOME": "/root", "DEBIAN_FRONTEND": "noninteractive"}
        chroot = ["chroot", self.folder, "env", *(f"{name}={value}" for name, value in environment.items())]
        return subprocess.run([*chroot, *words], input="".join(f"{it}\n" for it in lines), text=True, env=known, timeout=300,
                              stdout=subprocess.PIPE, stderr=subprocess.STDOUT, start_new_session=True, check=False)

    def must(self, *words, **more):
        done = self.run(*words, **more)
        if done.returncode:
            raise Failed(f"{' '.join(map(str, words))}: status {done.returncode}: {done.stdout}")
        return done.stdout

    def start(self, *words, **environment):
        """Starts one of the KDC's own daemons, which stay in the foreground."""
        output = self.folder / "tmp" / f"{pathlib.Path(words[0]).name}.output"
        with output.open("a") as out:
            process = subprocess.Popen(["chroot", self.folder, *words], stdin=subprocess.DEVNULL, stdout=out, stderr=out,
                                       env={**os.environ, "LC_ALL": "C.UTF-8", "TZ": "UTC", **environment}, start_new_session=True)
        self.others.append(process)
        return process

    def path(self, place):
        return self.folder / place.lstrip("/")

    # ---- units

    def unit(self, name):
        """A unit as its files are now, with the process that it has."""
        name = name if name.endswith(".service") else f"{name}.service"
        now = unit.Unit(self, name)
        if name in self.units:
            now.process = self.units[name].process
        self.units[name] = now
        return now

    def take_commands(self):
        while True:
            try:
                connection, _ = self.listener.accept()
            except OSError:
                return
            with connection, connection.makefile("rw") as file:
                words = file.readline().rstrip("\n").split("\0")
                status, text = self.command(words)
                file.write(f"{status}\n{text}")

    def command(self, words):
        """What `systemctl WORD ..` does: a status and what it prints."""
        self.asked.append(" ".join(words))
        verb, *names = [it for it in words if not it.startswith("-")] or [""]
        status, text = 0, ""
        for name in names if verb != "show" else ():
            if not unit.path_of(self.folder, name if name.endswith(".service") else f"{name}.service"):
                status = 5
                continue
            it = self.unit(name)
            if verb == "stop" or (verb in ("restart", "try-restart") and it.is_active()):
                was_active = it.is_active()
                it.stop()
                if verb != "stop" and was_active:
                    status = status or (it.start() == "failed")
            elif verb in ("start", "restart"):
                status = status or int(it.start() == "failed")
            elif verb == "reload":
                status = status or it.reload()
            elif verb == "is-active":
                status = 0 if it.is_active() else 3
        return int(status), text

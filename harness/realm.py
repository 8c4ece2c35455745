"""A realm EXAMPLE.COM of MIT Kerberos on loopback, in a temporary folder, and its clients."""

import contextlib
import os
import pathlib
import re
import shutil
import subprocess
import tempfile

from harness.ports import free_ports, is_open

REALM = "EXAMPLE.COM"
SERVICE = "kadmin/changepw"
MASTER = "Master-pass1"
# of a client's krb5.conf: DNS has nothing of the realm
NO_DNS = f"""\
[libdefaults]
    default_realm = {REALM}
    dns_lookup_kdc = false
    dns_lookup_realm = false
    dns_canonicalize_hostname = false
    rdns = false
"""
# it takes the KDC's clock for no better one than its own
AHEAD = """\
    kdc_timesync = 0
    clockskew = 900"""
HERE = pathlib.Path(__file__).resolve().parent
# what unpacks the packages
FETCH = HERE / "fetch.sh"


class Failed(Exception):
    """Something that the runs need couldn't be done."""


def packages_folder():
    """Where fetch.sh unpacks: CHPW_PACKAGES, or chpw-packages in the temporary folder."""
    default = pathlib.Path(tempfile.gettempdir()) / "chpw-packages"
    return pathlib.Path(os.environ.get("CHPW_PACKAGES", default)).resolve()


class Project:
    """The programs of one project, as unpacked in a folder."""

    def __init__(self, folder):
        self.folder = folder
        parts = [*folder.glob("usr/lib/*-linux-gnu*"), *folder.glob("lib/*-linux-gnu*")]
        # Debian puts libraries that others conflict with one below
        parts += [part / "heimdal" for part in parts if (part / "heimdal").is_dir()]
        self.libraries = ":".join(str(part) for part in parts)

    def program(self, name):
        """The whole path; a name with a slash is one already."""
        if "/" in name:
            return name
        for place in ("usr/bin", "usr/sbin"):
            found = self.folder / place / name
            if found.exists():
                return str(found)
        raise Failed(f"no {name} in {self.folder}")

    def plugins(self):
        return str(next(self.folder.glob("usr/lib/*-linux-gnu*/krb5/plugins")))

    def compiled(self, folder, name, *libraries):
        """The program of NAME.c in that folder, over these libraries of MIT's."""
        program = folder / name
        include = self.folder / "usr/include"
        places = self.libraries.split(":")
        subprocess.run(
            ["gcc", "-std=c11", "-D_DEFAULT_SOURCE", "-Wall", "-Wextra", "-Werror", "-O1"]
            + [f"-I{include}", f"-I{include}/mit-krb5", "-o", program, HERE / f"{name}.c"]
            + [f"-L{place}/mit-krb5" for place in places]
            + [f"-l{library}" for library in libraries]
            + [f"-Wl,-rpath-link,{place}" for place in places],
            check=True,
        )
        return str(program)


class AnyRealm:
    """A realm in a folder of its own: `make` writes its files and starts its KDC; all is gone at the end."""

    def __init__(self, passwords, keep=False):
        packages = packages_folder()
        subprocess.run([FETCH, packages], check=True)
        self.mit = Project(packages / "mit")
        self.heimdal = Project(packages / "heimdal")
        self.passwords = passwords
        self.keep = keep
        self.processes = []

    def __enter__(self):
        self.folder = pathlib.Path(tempfile.mkdtemp(prefix=self.PREFIX))
        with contextlib.ExitStack() as undo:
            undo.push(self.__exit__)
            self.make()
            undo.pop_all()
        return self

    def __exit__(self, *_):
        for process in self.processes:
            process.terminate()
            process.wait()
        if self.keep:
            print(f"kept: {self.folder}")
        else:
            shutil.rmtree(self.folder)

    def begin(self, name, command, environment, is_up):
        """A process of the realm's, whose output is in NAME.out; `is_up` waits until it listens, and says whether it does."""
        log = self.folder / f"{name}.out"
        with log.open("w") as out:
            how = {"stdin": subprocess.DEVNULL, "stdout": out, "stderr": out, "start_new_session": True}
            process = subprocess.Popen(command, env=environment, **how)
        self.processes.append(process)
        if not is_up(process):
            raise Failed(f"{name} doesn't listen: {log.read_text()}")

    @staticmethod
    def ended(command, lines, environment):
        """A program that has run without a terminal, the lines as its input."""
        return subprocess.run(command, input="".join(line + "\n" for line in lines), capture_output=True, text=True,
                              env=environment, start_new_session=True, timeout=60)


class Realm(AnyRealm):
    """`with Realm(passwords) as realm` makes it and starts its KDC; both are gone afterwards."""

    PREFIX = "chpw-realm-"

    def __init__(self, passwords, keep=False):
        super().__init__(passwords, keep)
        self.kdc_port, self.kadmind_port, self.kpasswd_port = free_ports(3)

    def make(self):
        self.write_kdc_configuration()
        self.write_client_configuration(self.kpasswd_port)
        self.make_database()
        self.start("krb5kdc", ["-n"], self.kdc_port)

    # ---- configuration

    def write_kdc_configuration(self):
        """AES alone, with the default salt; nothing lies outside the folder."""
        folder = self.folder
        (folder / "kdc.conf").write_text(f"""\
[kdcdefaults]
    kdc_listen = 127.0.0.1:{self.kdc_port}
    kdc_tcp_listen = 127.0.0.1:{self.kdc_port}
[realms]
    {REALM} = {{
        database_name = {folder}/principal
        key_stash_file = {folder}/stash
        acl_file = {folder}/kadm5.acl
        kadmind_listen = 127.0.0.1:{self.kadmind_port}
        kpasswd_listen = 127.0.0.1:{self.kpasswd_port}
        master_key_type = aes256-cts-hmac-sha1-96
        supported_enctypes = aes256-cts-hmac-sha1-96:normal aes128-cts-hmac-sha1-96:normal
    }}
[libdefaults]
    # of the KDC: it reads the second alone, and a coarse clock's; a client's may be 300 ahead (ahead.c)
    clockskew = 900
[dbmodules]
    db_module_dir = {self.mit.plugins()}/kdb
[logging]
    kdc = FILE:{folder}/kdc.log
    admin_server = FILE:{folder}/kadmind.log
""")
        (folder / "kadm5.acl").write_text(f"admin@{REALM} *\n")

    def write_client_configuration(self, port):
        """Who changes passwords. The projects write a server over TCP in different ways."""
        for project, server in (("mit", f"127.0.0.1:{port}"), ("heimdal", f"tcp/127.0.0.1:{port}")):
            (self.folder / f"{project}.conf").write_text(f"""\
{NO_DNS}    udp_preference_limit = 0
    plugin_base_dir = {self.mit.plugins()}
[realms]
    {REALM} = {{
        kdc = 127.0.0.1:{self.kdc_port}
        admin_server = 127.0.0.1:{self.kadmind_port}
        kpasswd_server = {server}
    }}
""")
        # the same, with messages and tickets of etype 17 alone
        for project, key in (("mit", "permitted_enctypes"), ("heimdal", "default_etypes")):
            text = (self.folder / f"{project}.conf").read_text()
            weaker = f"[libdefaults]\n    {key} = aes128-cts-hmac-sha1-96"
            (self.folder / f"{project}-aes128.conf").write_text(
                text.replace("[libdefaults]", weaker)
            )
            # the same, for a client whose clock is ahead of the KDC's, and stays so
            (self.folder / f"{project}-ahead.conf").write_text(
                text.replace("[libdefaults]", "[libdefaults]\n" + AHEAD)
            )

    # ---- programs

    def environment(self, project, variant=""):
        name = "mit" if project is self.mit else "heimdal"
        return {
            **os.environ,
            "LC_ALL": "C",
            "TZ": "UTC",
            "LD_LIBRARY_PATH": project.libraries,
            "KRB5_CONFIG": str(self.folder / f"{name}{variant}.conf"),
            "KRB5_KDC_PROFILE": str(self.folder / "kdc.conf"),
            "KRB5CCNAME": f"FILE:{self.folder}/cache-{name}",
        }

    def run(self, project, command, lines=(), variant="", **more):
        """Runs a program of the project without a terminal, the lines as its input.

        `more` is of its environment.
        """
        return self.ended([project.program(command[0]), *command[1:]], lines, {**self.environment(project, variant), **more})

    def kadmin(self, *words):
        self.must(["kadmin.local", *words])

    def must(self, command):
        done = self.run(self.mit, command)
        if done.returncode != 0:
            raise Failed(f"{' '.join(command)}: {done.stdout}{done.stderr}")

    def make_database(self):
        self.must(["kdb5_util", "create", "-s", "-r", REALM, "-P", MASTER])
        for name, password in self.passwords.items():
            self.kadmin("addprinc", "-pw", password, name)

    def start(self, name, words, port):
        command = [self.mit.program(name), *words]
        self.begin(name, command, self.environment(self.mit), lambda process: is_open(port, process))

    def start_kadmind(self):
        """MIT's own password server, on `kpasswd_port`."""
        self.start("kadmind", ["-nofork"], self.kpasswd_port)

    def kvno(self, name):
        """Which version the database has."""
        done = self.run(self.mit, ["kadmin.local", "getprinc", name])
        return max(map(int, re.findall(r"^Key: vno (\d+)", done.stdout, re.MULTILINE)), default=0)

    def keytab(self, names=None):
        """The bytes of a keytab with the keys of the service and of the principals, or of these."""
        path = self.folder / "realm.keytab"
        path.unlink(missing_ok=True)
        for name in (SERVICE, *(names or self.passwords)):
            self.kadmin("ktadd", "-k", str(path), "-norandkey", name)
        return path.read_bytes()

    def client(self):
        """The client over MIT's library."""
        return self.compiled("set_password", "krb5")

    def compiled(self, name, *libraries):
        """The program of NAME.c, over these libraries of MIT's."""
        return self.mit.compiled(self.folder, name, *libraries)

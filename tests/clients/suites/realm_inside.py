"""The realm EXAMPLE.COM as a suite sees it, on whose KDC's host it runs as root."""

import itertools
import subprocess
import time

REALM = "EXAMPLE.COM"
PASSWORD = "Old-pass1"
SECONDS = 30
number = itertools.count(1)


def ran(*words, lines=(), check=True, seconds=SECONDS, **environment):
    """What a command prints."""
    import os
    done = subprocess.run(words, input="".join(f"{it}\n" for it in lines), text=True, stdout=subprocess.PIPE, check=False,
                          stderr=subprocess.STDOUT, timeout=seconds, env={**os.environ, **environment})
    if check and done.returncode:
        raise RuntimeError(f"{words[0]}: status {done.returncode}: {done.stdout[-300:]}")
    return done.stdout


def has(name):
    """Waits until the service has adopted the principal."""
    table = ("chpw_server", "table", "--config", "/etc/boddrelyn/realm.toml", "--journal", "/var/lib/boddrelyn/journal")
    for _ in range(10 * SECONDS):
        if f"\n{name} kvno " in f"\n{ran(*table)}":
            return
        time.sleep(0.1)
    raise RuntimeError(f"the service doesn't adopt {name}")


def user(suite, *options):
    """A new user of that password."""
    name = f"{suite}{next(number)}"
    ran("kadmin.local", "addprinc", *options, "-pw", PASSWORD, name)
    has(name)
    return name


def logs_in(name, password):
    """Whether the KDC takes the password."""
    return "in failed" not in ran("kinit", "-c", "MEMORY:", name, lines=[password, password, password], check=False) and \
        subprocess.run(["kinit", "-c", "MEMORY:", name], input=f"{password}\n", text=True, stdout=subprocess.DEVNULL,
                       stderr=subprocess.DEVNULL, timeout=SECONDS, check=False).returncode == 0


def keys(principal):
    """The keys of a principal, by encryption type, each with its version."""
    file = f"/tmp/{next(number)}.keytab"
    ran("kadmin.local", "ktadd", "-k", file, "-norandkey", principal)
    found = {}
    for line in ran("klist", "-Kekt", file).splitlines():
        words = line.split()
        if words[-1:] and words[-1].startswith("(0x"):
            etype = 18 if "aes256" in line else 17
            found[etype] = int(words[0]), bytes.fromhex(words[-1][3:-1])
    return found

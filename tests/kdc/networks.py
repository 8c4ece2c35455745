"""A network of three hosts, each a namespace of Linux with addresses of both families. Nothing of the machine's own network is
used or changed.

`kdc` is where the KDC and the service listen; `client` and `other` are two that ask. Files and Unix sockets are those of the
machine, so an agent that runs outside is reached from `kdc`, too.
"""

import contextlib
import ctypes
import os
import pathlib
import shutil
import subprocess

FAMILIES = ("IPv4", "IPv6")
# how many bits of an address of either are the network's
BITS = (24, 64)
# of each host, the last part of its addresses
HOSTS = {"kdc": 1, "client": 2, "other": 3}
# and of one that has moved
LAST = {**HOSTS, "moved": 4}
# of setns(2)
CLONE_NEWNET = 0x40000000


def addresses(host):
    """Its address of IPv4, and that of IPv6."""
    return f"10.9.0.{LAST[host]}", f"fd00:9::{LAST[host]}"


def bracketed(address):
    """As it stands before a colon and a port."""
    return f"[{address}]" if ":" in address else address


def interface_of(host):
    return "bridge" if host == "kdc" else "ether"


def ip(*words):
    done = subprocess.run(["ip", *words], capture_output=True, text=True)
    if done.returncode != 0:
        raise OSError(f"ip {' '.join(words)}: {done.stderr.strip()}")


def why_not():
    """Why no such network can be had here; None where it can."""
    if shutil.which("ip") is None:
        return "there is no ip, of the package iproute2"
    try:
        with Network():
            return None
    except OSError as fault:
        return str(fault)


class Network:
    """`with Network() as network` makes it; it is gone afterwards."""

    def __enter__(self):
        with contextlib.ExitStack() as undo:
            for host in HOSTS:
                ip("netns", "add", self.name(host))
                undo.callback(ip, "netns", "del", self.name(host))
                ip("-n", self.name(host), "link", "set", "lo", "up")
            self.join()
            self.undo = undo.pop_all()
        return self

    def __exit__(self, *_):
        self.undo.close()

    @staticmethod
    def name(host):
        return f"chpw-{os.getpid()}-{host}"

    def join(self):
        """All by a bridge, which is the KDC's interface."""
        ip("-n", self.name("kdc"), "link", "add", "bridge", "type", "bridge")
        for host in HOSTS:
            if host != "kdc":
                pair = [f"to-{host}", "type", "veth", "peer", "name", "ether", "netns", self.name(host)]
                ip("-n", self.name("kdc"), "link", "add", *pair)
                ip("-n", self.name("kdc"), "link", "set", f"to-{host}", "master", "bridge", "up")
            for number in range(len(FAMILIES)):
                self.address("add", host, number, host)
            ip("-n", self.name(host), "link", "set", interface_of(host), "up")

    def address(self, what, host, number, whose):
        """Adds or deletes an address of that host, the one of that number of `whose`."""
        words = [f"{addresses(whose)[number]}/{BITS[number]}", "dev", interface_of(host)]
        # one of IPv6 at once, without asking whether somebody has it
        more = ["nodad"] if (what, number) == ("add", 1) else []
        ip("-n", self.name(host), "addr", what, *words, *more)

    @contextlib.contextmanager
    def moved(self, host, number):
        """It has another address in place of the one of that number."""
        self.address("del", host, number, host)
        self.address("add", host, number, "moved")
        try:
            yield
        finally:
            self.address("del", host, number, "moved")
            self.address("add", host, number, host)

    @contextlib.contextmanager
    def without_tcp(self, host, port):
        """From there nobody can be reached over TCP at that port."""
        rule = ["ipproto", "tcp", "dport", str(port), "unreachable"]
        for family in ("-4", "-6"):
            ip("-n", self.name(host), family, "rule", "add", *rule)
        try:
            yield
        finally:
            for family in ("-4", "-6"):
                ip("-n", self.name(host), family, "rule", "del", *rule)

    @contextlib.contextmanager
    def inside(self, host):
        """What this thread makes meanwhile is of that host: sockets, and programs with theirs."""
        with open("/proc/thread-self/ns/net", "rb") as own, open(f"/run/netns/{self.name(host)}", "rb") as there:
            enter(there)
            try:
                yield
            finally:
                enter(own)

    def counted(self, host, *names):
        """Of the numbers that the host's kernel counts (nstat(8)), the sum of these."""
        with self.inside(host):
            texts = [pathlib.Path("/proc/thread-self/net", it).read_text() for it in ("snmp", "snmp6")]
        return sum(number for name, number in numbers_in("".join(texts)) if name in names)


def enter(namespace):
    libc = ctypes.CDLL(None, use_errno=True)
    if libc.setns(namespace.fileno(), CLONE_NEWNET) != 0:
        raise OSError(ctypes.get_errno(), "setns")


def numbers_in(text):
    """Names and numbers: of /proc/net/snmp two lines for a protocol, of /proc/net/snmp6 one for a number."""
    names = []
    for line in text.splitlines():
        first, *words = line.split()
        if not first.endswith(":"):
            yield first, int(words[0])
        elif names:
            yield from ((first[:-1] + name, int(number)) for name, number in zip(names, words))
            names = []
        else:
            names = words

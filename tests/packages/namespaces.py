"""Namespaces of the tests' own, so that no port of the machine is used."""

import fcntl
import os
import socket
import struct

from harness.command import itself


def enter(variable):
    """Runs this command once more in new namespaces, with a variable that says so, in place of this process."""
    words = ["--mount", "--pid", "--net", "--uts", "--ipc", "--fork", "--kill-child", "--mount-proc"]
    os.environ[variable] = "1"
    os.execvp("unshare", ["unshare", *words, *itself()])


def loopback_up():
    """In a new network namespace lo is down."""
    with socket.socket(socket.AF_INET, socket.SOCK_DGRAM) as it:
        up = 0x1  # IFF_UP
        fcntl.ioctl(it, 0x8914, struct.pack("16sh22x", b"lo", up))  # SIOCSIFFLAGS

"""Ports of loopback."""

import contextlib
import pathlib
import random
import socket
import time

# below it are ports of services that have a number of their own
FIRST = 10_000
# the lowest and the highest port that the system gives to a connection that is made
GIVEN = pathlib.Path("/proc/sys/net/ipv4/ip_local_port_range")


def are_free(port, stack):
    """Whether nobody listens on the port, over TCP or UDP; until the stack ends, nobody else does."""
    with contextlib.suppress(OSError):
        for kind in (socket.SOCK_STREAM, socket.SOCK_DGRAM):
            stack.enter_context(socket.socket(type=kind)).bind(("127.0.0.1", port))
        return True
    return False


def free_ports(count):
    """Ports on which nobody listens at the moment, and which no connection gets as its own before somebody does."""
    ports = range(FIRST, int(GIVEN.read_text().split()[0])) or range(FIRST, 65_536)
    found = []
    with contextlib.ExitStack() as stack:
        while len(found) < count:
            port = random.choice(ports)
            if are_free(port, stack):
                found.append(port)
    return found


def is_heard(port, address="127.0.0.1"):
    """Whether somebody listens."""
    with socket.socket() as probe:
        return probe.connect_ex((address, port)) == 0


def is_open(port, process, address="127.0.0.1"):
    """Whether somebody listens within ten seconds, before the process ends."""
    for _ in range(200):
        if is_heard(port, address):
            return True
        if process.poll() is not None:
            return False
        time.sleep(0.05)
    return False

"""The projects' own servers beside the KDC, for as long as a test needs them."""

import contextlib
import subprocess
import time

from harness.ports import is_open
from harness.realm import Failed


@contextlib.contextmanager
def daemon(command, environment, log, port=None):
    """It listens at the port from the beginning on, where one is given: of 127.0.0.1, or with its address."""
    address, port = port if isinstance(port, tuple) else ("127.0.0.1", port)
    with log.open("w") as out:
        process = subprocess.Popen(
            command, stdin=subprocess.DEVNULL, stdout=out, stderr=out, env=environment,
            start_new_session=True,
        )
    try:
        if port is not None and not is_open(port, process, address):
            raise Failed(f"{command[0]} doesn't listen: {log.read_text()}")
        yield process
    finally:
        process.terminate()
        process.wait()


def comes(is_so, seconds=20):
    """Whether it is so within that time."""
    end = time.monotonic() + seconds
    while not is_so():
        if time.monotonic() > end:
            return False
        time.sleep(0.05)
    return True

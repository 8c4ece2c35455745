"""Processor seconds that `serve` takes to refuse so many replayed messages.

They are sent over sixteen connections to four workers. The program is built first if a source has changed.
"""

import os
import pathlib
import sys
import tempfile
import threading

from bench.build import built
from harness import asking
from harness.command import Parser
from harness.sample_realm import write_configuration
from harness.server import Server

MESSAGES = 60_000
CONNECTIONS = 16
WORKERS = 4
NAME = "alice"


def processor_seconds(process):
    """User's and system's time so far; in /proc/PID/stat, after the name, fields 14 and 15."""
    stat = pathlib.Path(f"/proc/{process.pid}/stat").read_text()
    user, system = stat.rsplit(")", 1)[1].split()[11:13]
    return (int(user) + int(system)) / os.sysconf("SC_CLK_TCK")


class Flood(threading.Thread):
    """Sends a message again and again while it reads the replies."""

    def __init__(self, port, request, messages):
        super().__init__()
        self.connection = asking.Connection(port, seconds=300)
        self.request = request
        self.messages = messages
        self.replayed = 0

    def send_all(self):
        for _ in range(self.messages):
            self.connection.send(self.request)

    def run(self):
        sending = threading.Thread(target=self.send_all)
        sending.start()
        for _ in range(self.messages):
            reply = self.connection.reply()
            self.replayed += reply is not None and reply.endswith(b"request replayed")
        sending.join()
        self.connection.close()


def accepted(port):
    """A request that was."""
    request = asking.request_now(NAME, "New-pass2", 1)
    connection = asking.Connection(port)
    connection.send(request)
    told = asking.said(request, connection.reply())
    connection.close()
    if told != "code 0 password changed":
        sys.exit(f"a change is answered {told}")
    return request


def flooded(server, messages):
    """Processor seconds of the service under the flood."""
    server.start(connections=CONNECTIONS + 2)
    request = accepted(server.port)
    before = processor_seconds(server.process)
    floods = [Flood(server.port, request, messages // CONNECTIONS) for _ in range(CONNECTIONS)]
    for flood in floods:
        flood.start()
    for flood in floods:
        flood.join()
    seconds = processor_seconds(server.process) - before
    replayed = sum(flood.replayed for flood in floods)
    server.connect()
    words = server.last_words()
    if words != f"entries {replayed + 1} changes 1":
        sys.exit(f"{replayed} messages are told that they are replayed, and serve says: {words}")
    return replayed, seconds


def main():
    parser = Parser(__doc__, "replayed N messages in S s", "it can't be measured")
    parser.add_argument("messages", nargs="?", type=int, default=MESSAGES, metavar="MESSAGES", help=f"by default {MESSAGES}")
    messages = parser.parse_args().messages
    program = built("chpw_server")
    with tempfile.TemporaryDirectory(prefix="chpw-replays-") as folder:
        server = Server(program, pathlib.Path(folder), WORKERS)
        write_configuration(server.configuration, [NAME])
        try:
            replayed, seconds = flooded(server, messages)
        finally:
            server.end()
    print(f"replayed {replayed} messages in {seconds:.1f} s")


if __name__ == "__main__":
    main()

"""Changes by the service's own client."""

import subprocess

NAMES = ["user0", "user1"]
CHANGED = "code 0 password changed"


def change(server, name, number):
    """What the client prints that sets this user's password to the one of this number."""
    words = ["--config", server.configuration, "--seed", "/dev/urandom", "--port", str(server.port)]
    words += ["--client", name, "--password", f"New-pass{number}"]
    done = subprocess.run([server.program, "client", *words], capture_output=True, text=True, timeout=60)
    return (done.stdout + done.stderr).strip()

"""MIT's kpasswd and kinit through an MS-KKDCP proxy: Debian's python3-kdcproxy over HTTPS, as FreeIPA has it."""

import pathlib
import signal
import socket
import subprocess
import sys
import time

import realm_inside
import told

PORT = 4443
SERVER = """
import ssl, sys
from wsgiref.simple_server import make_server
import kdcproxy
server = make_server("127.0.0.1", int(sys.argv[1]), kdcproxy.Application())
context = ssl.SSLContext(ssl.PROTOCOL_TLS_SERVER)
context.load_cert_chain("/tmp/proxy.pem")
server.socket = context.wrap_socket(server.socket, server_side=True)
server.serve_forever()
"""
CLIENT = """\
[libdefaults]
    default_realm = EXAMPLE.COM
    dns_lookup_kdc = false
[realms]
    EXAMPLE.COM = {{
        http_anchors = FILE:/tmp/proxy.pem
        kdc = https://localhost:{port}/KdcProxy
        kpasswd_server = https://localhost:{port}/KdcProxy
    }}
"""


class Proxy:
    """`with Proxy(server, port)`: one whose kpasswd server is that."""

    def __init__(self, server, port):
        self.server, self.port = server, port

    def __enter__(self):
        settings, client = pathlib.Path(f"/tmp/proxy{self.port}.conf"), pathlib.Path(f"/tmp/client{self.port}.conf")
        settings.write_text(f"[EXAMPLE.COM]\nkerberos = kerberos://127.0.0.1:88\nkpasswd = kpasswd://{self.server}:464\n")
        client.write_text(CLIENT.format(port=self.port))
        self.environment = {"KRB5_CONFIG": str(client)}
        self.output = open(f"/tmp/proxy{self.port}.out", "w")
        self.process = subprocess.Popen([sys.executable, "-c", SERVER, str(self.port)], stdout=self.output, stderr=self.output,
                                        env={"KDCPROXY_CONFIG": str(settings), "PATH": "/usr/bin:/bin"})
        time.sleep(2)
        return self

    def __exit__(self, *_):
        self.process.send_signal(signal.SIGKILL)
        self.process.wait()
        self.output.close()

    def kpasswd(self, name, old, new, seconds=realm_inside.SECONDS):
        try:
            return realm_inside.ran("kpasswd", name, lines=[old, new, new], check=False, seconds=seconds, **self.environment)
        except subprocess.TimeoutExpired:
            return "no answer"

    def failed(self):
        """How often it couldn't write to the server."""
        return pathlib.Path(self.output.name).read_text(errors="replace").count("broken while writing")

    def kinit(self, name, password):
        return realm_inside.ran("kinit", "-c", "MEMORY:", name, lines=[password], check=False, **self.environment)


def main():
    realm_inside.ran("openssl", "req", "-x509", "-newkey", "rsa:2048", "-nodes", "-days", "2", "-subj", "/CN=localhost", "-addext",
                     "subjectAltName=DNS:localhost", "-keyout", "/tmp/proxy.key", "-out", "/tmp/proxy.crt")
    pathlib.Path("/tmp/proxy.pem").write_text(pathlib.Path("/tmp/proxy.key").read_text() + pathlib.Path("/tmp/proxy.crt").read_text())
    old, new = realm_inside.PASSWORD, "New-pass1"
    with Proxy("127.0.0.1", PORT) as proxy:
        name = realm_inside.user("proxy")
        told.run("kinit", lambda: told.wanted("it", "failed" in proxy.kinit(name, old), False))
        told.run("too short", lambda: told.wanted("it", "password too short" in proxy.kpasswd(name, old, "short"), True))
        told.run("kpasswd", lambda: told.wanted("it", "Password changed." in proxy.kpasswd(name, old, new), True))
        told.run("kinit with the new password", lambda: told.wanted("it", realm_inside.logs_in(name, new), True))
        expired = realm_inside.user("proxy", "+needchange")
    # as on a host with IPv6
    with open("/etc/hosts", "a", encoding="ascii") as hosts:
        hosts.write("::1 localhost\n")
    with Proxy("localhost", PORT + 1) as proxy:
        name = realm_inside.user("proxy")
        told.run("localhost is ::1 first", lambda: told.wanted("it", socket.getaddrinfo("localhost", 464)[0][4][0], "::1"))
        told.run("kpasswd by localhost", lambda: told.wanted("it", "Password changed." in proxy.kpasswd(name, old, new), True))
        told.run("kinit with that password", lambda: told.wanted("it", realm_inside.logs_in(name, new), True))
        told.run("tries that failed", lambda: told.wanted("they", proxy.failed(), 0))


if __name__ == "__main__":
    main()

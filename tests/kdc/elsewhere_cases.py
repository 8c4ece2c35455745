"""Clients on other hosts: stock clients of both projects, over either family and either protocol, at a service that listens there.

The KDC and the service are at one host of a network that is made for this (networks.py), at the ports that they have everywhere.
The KDC takes no datagrams there, so each that the host takes is the service's.
"""

import contextlib
import socket
import subprocess
import time

from harness import asking
from harness import configuration
from harness.realm import SERVICE
from tests.kdc.at_kdc import AtKdc
from tests.kdc.daemons import comes, daemon
from tests.kdc.networks import FAMILIES, Network, addresses, bracketed, why_not
from tests.kdc.realms import FIRST, of_keytab
from tests.kdc.served import Served
from tests.kdc.stock_clients import HeimdalClient, HeimdalOverUdp, MitClient

KDC, CHANGEPW = 88, 464
LOOPBACK = ("127.0.0.1", "::1")
WAIT = 1500
NEW, SHORT, REASON = "Elsewhere-pass1", "abc", "password too short"
CHANGED = "code 0 password changed"
DONE, BAD_ADDRESS = "code 0 ", "code 3 error 38 "
# seconds that a reply may take, and within which it comes where nothing stands before it
PATIENCE, AT_ONCE = 30, 2
# places of connections, and those of one peer
CLIENTS, SHARE = 16, 4
# of the kernel: datagrams that somebody took
DATAGRAMS = ("UdpInDatagrams", "Udp6InDatagrams")
WITH_ADDRESSES = "    noaddresses = false\n    no-addresses = false\n"


class MitOverTcp(MitClient):
    NAME, SETTINGS, IS_OVER_UDP = "MIT's clients", "    udp_preference_limit = 0\n", False


class MitOverUdp(MitClient):
    """It asks over UDP alone where nobody can be reached over TCP."""

    NAME, SETTINGS, IS_OVER_UDP = "MIT's clients over UDP", "    udp_preference_limit = 0\n", True


class HeimdalOverTcp(HeimdalClient):
    KDC_PREFIX, SETTINGS, IS_OVER_UDP = "tcp/", "", False


class HeimdalByUdp(HeimdalOverUdp):
    KDC_PREFIX, SETTINGS, IS_OVER_UDP = "tcp/", "", True


KINDS = [MitOverTcp, MitOverUdp, HeimdalOverTcp, HeimdalByUdp]


class ElsewhereCases(AtKdc):
    """A user for each client and family, and one for each later case."""

    def test_other_hosts(self):
        why = why_not()
        if why is not None:
            self.skipTest(f"no network can be made: {why}: clients elsewhere aren't tried")
        users = [self.name() for _ in range(len(FAMILIES) * (len(KINDS) + 6))]
        with Network() as self.network, self.serving(users[:]):
            for number, family in enumerate(FAMILIES):
                for kind in KINDS:
                    self.changes(kind, users.pop(), number, family)
                for is_over_udp in (False, True):
                    self.sender_is_asked_one(users.pop(), number, is_over_udp)
                self.mit_with_addresses(users.pop(), number, family)
                self.heimdal_with_addresses(users.pop(), number, family)
                self.crowd([users.pop(), users.pop()], number, family)

    # ---- the host of the KDC

    @contextlib.contextmanager
    def serving(self, users):
        """The KDC, the service and an agent, at each address of their host."""
        listening = [word for it in (*LOOPBACK, *addresses("kdc")) for word in ("--listen", it)]
        shares = ["--clients", str(CLIENTS), "--clients-per-peer", str(SHARE)]
        self.files = Served(self.realm, self.program, "elsewhere", WAIT, options=["--udp", *listening, *shares])
        self.files.server.port = CHANGEPW
        self.files.configure(configuration.configuration(self.realm.keytab(users), []) + self.own_names())
        kdc = mit_kdc if self.realm.KIND == "MIT" else heimdal_kdc
        with contextlib.ExitStack() as undo:
            undo.enter_context(kdc(self.realm, self.network, self.files.folder))
            undo.callback(self.files.end)
            self.files.begin_agent()
            with self.network.inside("kdc"):
                self.files.start()
            self.tell("elsewhere: the service and the KDC are in step", self.files.is_in_step())
            yield
            self.tell("  at the end too", self.files.is_in_step())
            self.keys_are_the_tables(self.files, users)

    def peers(self, *words):
        """Where the requests came from whose lines in the log have all these words."""
        lines = [it for it in self.files.log.read_text().splitlines() if all(f" {word}" in it for word in words)]
        return [it.split(" peer ")[1].split()[0] for it in lines]

    def changed_from(self, user):
        """Where the changes of a user came from."""
        return self.peers(f"client {user}@", DONE)

    def client(self, kind, user, number, settings=""):
        """A client of its own for a user, who asks the address of that number."""
        folder = self.files.folder / user
        folder.mkdir()
        return kind(folder, KDC, CHANGEPW, bracketed(addresses("kdc")[number]), kind.SETTINGS + settings)

    # ---- stock clients

    def changes(self, kind, user, number, family):
        """A refusal, and a change with a ticket by the new password, all from one address."""
        client, ours = self.client(kind, user, number), addresses("client")[number]
        is_without_tcp = kind is MitOverUdp
        with self.network.inside("client"), self.network.without_tcp("client", CHANGEPW) if is_without_tcp else contextlib.nullcontext():
            refused = client.kpasswd(user, FIRST, SHORT)
            before = self.network.counted("kdc", *DATAGRAMS)
            changed = client.kpasswd(user, FIRST, NEW)
            datagrams = self.network.counted("kdc", *DATAGRAMS) - before
            ticket = client.ticket(user, NEW).is_done and client.has_ticket(user)
        what = f"elsewhere: {client.NAME}, {family}"
        self.tell(f"{what}: refused", is_refused(client, refused) or refused.told())
        self.tell(f"{what}: a change", changed.is_done or changed.told())
        self.tell("  over UDP", datagrams > 0, kind.IS_OVER_UDP)
        self.tell("  a ticket by the new one", ticket)
        self.tell("  the log has where it came from", self.changed_from(user), [ours])

    # ---- replies

    def request(self, user):
        """A change by a ticket that is made with the service's own key."""
        keys = of_keytab(self.realm.keytab([user]))
        kvno, key = max((kvno, key) for name, kvno, etype, key in keys if (name, etype) == (SERVICE, 18))
        return asking.request_now(user, NEW, 7, service=bytes.fromhex(key), kvno=kvno)

    def sender_is_asked_one(self, user, number, is_over_udp):
        """The s-address of a reply is the address that was asked."""
        host = addresses("kdc")[number]
        sent = self.request(user)
        with self.network.inside("client"):
            reply = (by_datagram if is_over_udp else by_connection)(host, sent)
        what = f"elsewhere: a reply over {'UDP' if is_over_udp else 'TCP'} from {host}"
        self.tell(what, (asking.said(sent, reply), asking.sender(reply)), (CHANGED, host))

    # ---- tickets with addresses

    def mit_with_addresses(self, user, number, family):
        """kpasswd asks for a ticket that names its host's addresses. It counts from there; not where the host has got another
        address meanwhile."""
        client, ours = self.client(MitOverTcp, user, number, WITH_ADDRESSES), addresses("client")
        what = f"elsewhere: MIT, a ticket with addresses, {family}"
        with self.network.inside("client"):
            client.ticket(user, FIRST)
            listed = client.run(["klist", "-a", "-n"])
            changed = client.kpasswd(user, FIRST, NEW)
            moved = self.moved(client, user, number)
        self.tell(f"{what}: they are its host's", all(it in listed for it in ours) or listed.told())
        self.tell(f"{what}: a change", (changed.is_done or changed.told(), self.changed_from(user)), (True, [ours[number]]))
        self.tell(f"{what}: after a move", "authentication failed" in moved or moved)
        there = addresses("moved")[number]
        self.tell("  the log has the new address", set(self.peers(f"peer {there} ", BAD_ADDRESS)), {there})

    def moved(self, client, user, number):
        """What kpasswd says if its host has another address once it asks for the new password."""
        pipes = {"stdin": subprocess.PIPE, "stdout": subprocess.PIPE, "stderr": subprocess.STDOUT}
        command = [client.project.program("kpasswd"), user]
        with subprocess.Popen(command, text=True, env=client.environment(), start_new_session=True, **pipes) as process:
            process.stdin.write(f"{NEW}\n")
            process.stdin.flush()
            said = ""
            while "Enter new password" not in said and (more := process.stdout.read(1)):
                said += more
            with self.network.moved("client", number):
                return process.communicate("Moved-pass1\nMoved-pass1\n", timeout=PATIENCE)[0]

    def heimdal_with_addresses(self, user, number, family):
        """A ticket for the service that names its host's addresses, in a cache that kpasswd takes it from: there, and on another
        host that got the cache."""
        client = self.client(HeimdalOverTcp, user, number, WITH_ADDRESSES)
        what = f"elsewhere: Heimdal, a ticket with addresses, {family}"
        changing = ["kpasswd.heimdal", f"--cache=FILE:{client.cache}", user]
        with self.network.inside("client"):
            got = client.run(["kinit.heimdal", f"--server={SERVICE}", user], FIRST)
            changed = client.run(changing, NEW, NEW)
        with self.network.inside("other"):
            other = client.run(changing, "Other-pass1", "Other-pass1")
        found = "Success" in changed or got.told() + changed.told(), self.changed_from(user)
        self.tell(f"{what}: a change", found, (True, [addresses("client")[number]]))
        self.tell(f"{what}: from another host", "Success" in other, False)
        there = addresses("other")[number]
        self.tell("  the log has that one's address", set(self.peers(f"peer {there} ", BAD_ADDRESS)), {there})
        self.tell("  and no change from there", self.peers(f"peer {there} client {user}@", DONE), [])


    # ---- a host that takes all places

    def crowd(self, users, number, family):
        """Silent connections of one host hold its share, and are ended beyond that; clients of another host are answered at once."""
        what = f"elsewhere: {CLIENTS + SHARE} silent connections of a host, {family}"
        with self.network.inside("client"), contextlib.ExitStack() as undo:
            for _ in range(CLIENTS + SHARE):
                silent = asking.Connection(CHANGEPW, PATIENCE, host=addresses("kdc")[number])
                undo.callback(silent.close)
            self.tell(f"{what}: its share of places", comes(lambda: self.open_connections() == SHARE) or self.open_connections())
            for user, host in zip(users, addresses("kdc")):
                sent = self.request(user)
                with self.network.inside("other"):
                    start = time.monotonic()
                    told = asking.said(sent, by_connection(host, sent))
                is_soon = time.monotonic() - start < AT_ONCE
                self.tell(f"  a client of another host asks {host}, and how soon", (told, is_soon), (CHANGED, True))
            self.tell("  its share is as before", self.open_connections() <= SHARE)
        self.tell("  all are gone", comes(lambda: self.open_connections() == 0))

    def open_connections(self):
        return int(self.files.status()["connections"].split()[0])


def is_refused(client, seen):
    """Whether a change is refused, and the user is told why where the client shows it."""
    return not seen.is_done and (REASON in seen or not client.SHOWS_REASONS)


def by_connection(host, sent):
    connection = asking.Connection(CHANGEPW, PATIENCE, host=host)
    try:
        connection.send(sent)
        return connection.reply()
    finally:
        connection.close()


def by_datagram(host, sent):
    """A socket that is connected takes a datagram from the address alone that it asked."""
    with socket.socket(socket.AF_INET6 if ":" in host else socket.AF_INET, socket.SOCK_DGRAM) as client:
        client.settimeout(PATIENCE)
        client.connect((host, CHANGEPW))
        client.send(sent.message)
        return client.recv(65_535)


@contextlib.contextmanager
def mit_kdc(realm, network, folder):
    """MIT's KDC of the realm once more, over TCP at the addresses of its host."""
    text = (realm.folder / "kdc.conf").read_text()
    places = " ".join(f"{bracketed(it)}:{KDC}" for it in addresses("kdc"))
    text = text.replace(f"kdc_tcp_listen = 127.0.0.1:{realm.kdc_port}", f"kdc_tcp_listen = {places}")
    (folder / "kdc.conf").write_text(text.replace(f"{realm.folder}/kdc.log", f"{folder}/kdc.log"))
    environment = {**realm.environment(realm.mit), "KRB5_KDC_PROFILE": str(folder / "kdc.conf")}
    with started([realm.mit.program("krb5kdc"), "-n"], environment, network, folder):
        yield


@contextlib.contextmanager
def heimdal_kdc(realm, network, folder):
    """The same of Heimdal. The file of its process's number is its own."""
    command = [f"{realm.heimdal.folder}/usr/lib/heimdal-servers/kdc", f"--config-file={realm.folder}/krb5.conf", f"--ports={KDC}/tcp"]
    command += [f"--addresses={it}" for it in addresses("kdc")]
    with started(command, {**realm.environment(), "HEIM_PIDFILE_DIR": str(folder)}, network, folder):
        yield


@contextlib.contextmanager
def started(command, environment, network, folder):
    with contextlib.ExitStack() as undo:
        with network.inside("kdc"):
            undo.enter_context(daemon(command, environment, folder / "kdc.out", (addresses("kdc")[0], KDC)))
        yield

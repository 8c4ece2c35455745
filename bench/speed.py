"""Changes a second of MIT's kadmind and of the service, by one client over MIT's library.

The client has its ticket before the clock starts, makes a message and a connection for each change, and waits for each
answer. The rounds of the two take turns, so that both see the same machine; the best round counts.
"""

from harness import configuration
from harness.command import Parser
from harness.realm import Failed, Realm
from harness.server import Server

PASSWORDS = {"alice": "Old-pass1"}


def measured(realm, client, port, changes, name):
    """Changes a second; `name` makes the passwords of this round new."""
    realm.write_client_configuration(port)
    words = ["--many", str(changes), "alice", PASSWORDS["alice"], name, "alice"]
    # the round before has changed what the KDC knows, where it was kadmind's
    realm.kadmin("cpw", "-pw", PASSWORDS["alice"], "alice")
    done = realm.run(realm.mit, [client, *words])
    if done.returncode != 0:
        raise Failed(done.stderr)
    return changes / float(done.stdout)


def main():
    parser = Parser(__doc__, "kadmind N serve N", "it can't be measured")
    parser.add_program()
    parser.add_argument("--changes", type=int, default=200, metavar="N", help="changes of a round, by default 200")
    parser.add_argument("--rounds", type=int, default=5, metavar="N", help="rounds of each, by default 5")
    arguments = parser.parse_args()
    with Realm(PASSWORDS) as realm:
        client = realm.client()
        realm.start_kadmind()
        ports = {"kadmind": realm.kpasswd_port}
        server = Server(arguments.server, realm.folder, workers=1)
        try:
            server.configuration.write_text(configuration.configuration(realm.keytab(), []))
            server.start(connections=1_000_000)
            ports["serve"] = server.port
            best = dict.fromkeys(ports, 0)
            for turn in range(arguments.rounds):
                for name, port in ports.items():
                    word = f"Round-{name}-{turn}"
                    found = measured(realm, client, port, arguments.changes, word)
                    print(f"{name} {found:.0f}", flush=True)
                    best[name] = max(best[name], found)
        finally:
            server.end()
    print(*(f"{name} {found:.0f}" for name, found in best.items()))


if __name__ == "__main__":
    main()

"""Users who change their passwords at the same time, through the service and an agent at a KDC."""

import functools
from concurrent.futures import ThreadPoolExecutor

from harness.journal import Record, read_journal
from tests.kdc.at_kdc import AtKdc
from tests.kdc.breaking import Breaking
from tests.kdc.crowd import Crowd
from tests.kdc.own_configuration import configured, keys_of
from tests.kdc.realms import FIRST
from tests.kdc.served import Served

USERS = 16
# milliseconds, as where it isn't given
WAIT = 2000
# the types of the service's keys
OURS = 17, 18


@functools.cache
def keys_once(name, password):
    return keys_of(name, password)


def keys_in(record):
    return record.aes128, record.aes256


class CrowdCases(AtKdc):
    """`files` are the service and its agent, `crowd` its users, `breaking` what goes wrong beside them."""

    def begin(self, folder, depth, seed, options=()):
        """The service runs, with its files in a folder of this name; so many passwords of each user are remembered."""
        self.names = [self.name() for _ in range(USERS)]
        self.files = Served(self.realm, self.program, folder, WAIT, options=options)
        self.addCleanup(self.files.end)
        first = {name: (1, keys_of(name, FIRST)) for name in self.names}
        self.files.configure(configured(first, depth) + self.own_names())
        self.files.start()
        self.crowd = Crowd(self.files, self.files.server.port, self.names)
        self.breaking = Breaking(self.files, self.names, seed)

    def tell_changes(self):
        """Whether the journal's changes are those that were asked for, each user's in their order; all its records."""
        records, torn = read_journal(self.files.journal.read_bytes())
        found = {name: [] for name in self.names}
        for record in records:
            if type(record) is Record:
                found[record.name].append(keys_in(record))
        with ThreadPoolExecutor() as threads:
            wanted = {
                name: list(threads.map(functools.partial(keys_once, name), user.asked))
                for name, user in self.crowd.users.items()
            }
        changes = sum(map(len, found.values()))
        self.tell(f"  the journal's {changes} changes are those that were made", (found, torn) == (wanted, b""))
        return records

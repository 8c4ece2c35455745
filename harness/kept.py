"""Whether a journal has the changes that clients were told of: in order, with their versions, iteration counts and keys."""

import collections

from harness.journal import read_journal
from harness.wire import REALM, string_to_key

ITERATIONS = 4096


def keys_of(name, password, iterations=ITERATIONS):
    """The keys of etype 17 and 18 that a record of this change has."""
    salt = REALM + name.encode()
    return tuple(string_to_key(size, password.encode(), salt, iterations) for size in (16, 32))


def lost(client, records, first, iterations=ITERATIONS):
    """What is wrong with the records of a client's changes; `first` is the version of the first."""
    found = [record.kvno for record in records]
    if found != list(range(first, first + len(found))):
        yield f"{client.name}: versions {found} and not from {first} on"
    if len(found) < client.answered:
        yield f"{client.name}: {client.answered} answered, {len(found)} in the journal"
    if len(found) > len(client.asked):
        yield f"{client.name}: {len(client.asked)} asked, even {len(found)} in the journal"
    for record, password in zip(records, client.asked):
        if record.iterations != iterations:
            yield f"{client.name}: version {record.kvno} under {record.iterations} iterations"
        if (record.aes128, record.aes256) != keys_of(client.name, password, iterations):
            yield f"{client.name}: version {record.kvno} hasn't the keys of {password}"


def by_name(records):
    names = collections.defaultdict(list)
    for record in records:
        names[record.name].append(record)
    return names


def wrong_in_journal(clients, before, after, iterations=ITERATIONS):
    """What is wrong with a journal after a run, a line each; both are its bytes. A client has a name, what it `asked`, in
    order, and how many of these were `answered`."""
    if not after.startswith(before):
        yield "what was in the journal before this run has changed"
        return
    old = by_name(read_journal(before)[0])
    new = by_name(read_journal(after[len(before) :])[0])
    for client in clients:
        yield from lost(client, new.pop(client.name, []), 2 + len(old[client.name]), iterations)
    for name in new:
        yield f"{name}: nobody changed it"

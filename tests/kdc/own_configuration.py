"""A configuration that the tests write themselves, from passwords."""

from harness.realm import REALM
from harness.wire import string_to_key

COUNT = 4096


def keys_of(name, password):
    """Both keys of a password: etype 17's and 18's."""
    salt = (REALM + name.replace("/", "")).encode()
    return tuple(string_to_key(size, password.encode(), salt, COUNT) for size in (16, 32))


def stanza(name, kvno, keys):
    """A principal of one version."""
    row = f'kvno = {kvno}\niterations = {COUNT}\naes128 = "{keys[0].hex()}"\naes256 = "{keys[1].hex()}"\n'
    return f'[[principal]]\nname = "{name}"\n[[principal.key]]\n{row}'


def configured(versions, depth):
    """Of each name its version and keys, with a service key that no KDC has: harness/wire.py's."""
    key = f'[[service.key]]\nkvno = 3\netype = 18\nkey = "{"5a" * 32}"\n'
    policy = f"min_length = 6\nmin_classes = 2\ndepth = {depth}\niterations = {COUNT}\nset_needs_initial = false\n"
    principals = "".join(stanza(name, *it) for name, it in sorted(versions.items()))
    return f'[service]\nrealm = "{REALM}"\n{key}[policy]\n{policy}{principals}'

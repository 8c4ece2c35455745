"""The configuration of a realm for tests and benches (docs/ADMIN.md): EXAMPLE.COM, with a service key of 32 bytes 5a and
kvno 3, and these principals, each with a key that nobody knows the password of. The service's own client makes its tickets
itself, so any keys will do.
"""

import pathlib

from harness.command import Parser

SERVICE_KEY = b"\x5a" * 32

KEYS = """\
[[principal.key]]
kvno = {kvno}
iterations = {iterations}
aes128 = "{aes128}"
aes256 = "{aes256}"
"""


def principal(name, keys, iterations=4096):
    """A principal with these keys, of each version its number and those of etypes 17 and 18, the newest first."""
    text = f'[[principal]]\nname = "{name}"\n'
    for kvno, aes128, aes256 in keys:
        text += KEYS.format(kvno=kvno, iterations=iterations, aes128=aes128.hex(), aes256=aes256.hex())
    return text


def any_keys(versions=1):
    """Keys that nobody knows the password of; those of version 1 are of bytes 11 and of bytes 22 alone."""
    numbers = range(versions, 0, -1)
    return [(kvno, bytes([0x10 + kvno]) + b"\x11" * 15, bytes([0x21 + kvno]) + b"\x22" * 31) for kvno in numbers]


def configuration(names, iterations=4096, max_entries=None, versions=1):
    """The text; at most `max_entries` decisions, by default as many as the service takes, and so many versions of each
    principal's keys."""
    limit = "" if max_entries is None else f"max_entries = {max_entries}\n"
    principals = "".join(principal(name, any_keys(versions), iterations) for name in names)
    return f"""\
[service]
realm = "EXAMPLE.COM"
{limit}[[service.key]]
kvno = 3
etype = 18
key = "{SERVICE_KEY.hex()}"
[policy]
min_length = 6
min_classes = 2
depth = 3
iterations = {iterations}
set_needs_initial = false
{principals}"""


def write_configuration(path, names, **settings):
    path.write_text(configuration(names, **settings))
    path.chmod(0o600)


if __name__ == "__main__":
    parser = Parser(__doc__, None, "the file can't be written")
    parser.add_argument("file", type=pathlib.Path, metavar="FILE")
    parser.add_argument("name", nargs="*", metavar="NAME")
    words = parser.parse_args()
    write_configuration(words.file, words.name)

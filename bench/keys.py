"""What hashes, keys and the cipher cost, beside OpenSSL on the same machine.

Measured are an iteration of PBKDF2, both keys of a password at 4096 iterations, a block of SHA-1 and of AES, and a sealed text
of 1000 bytes refused. The program is built first if a source has changed.

Each time is processor time, the least of ROUNDS rounds, of a high count less that of a low one (timing.py). OpenSSL is called
by Python: its PBKDF2 and SHA-1 through hashlib, its AES (CBC, whose blocks it deciphers several at a time) through the package
`cryptography`, which has an OpenSSL of its own. Without that package its figures are left out.
"""

import hashlib
import ssl

from bench.build import built
from bench.timing import nanos, spent, spent_here
from harness.command import Parser

try:
    from cryptography.hazmat.backends.openssl import backend
    from cryptography.hazmat.primitives.ciphers import Cipher, algorithms, modes
except ImportError:
    backend = None

PASSWORD, SALT = b"Old-pass1", b"EXAMPLE.COMalice"


def ours(program, what):
    """Processor seconds of a run of the program, by its count."""
    return lambda count: spent([program, "keys", what, count])


def theirs(work):
    """Processor seconds of OpenSSL's work, by its count."""
    return lambda count: spent_here(work, count)


def iterations(count):
    hashlib.pbkdf2_hmac("sha1", PASSWORD, SALT, count, 20)


def both_keys(count):
    for _ in range(count):
        hashlib.pbkdf2_hmac("sha1", PASSWORD, SALT, 4096, 32)


def hash_blocks(count):
    hasher, blocks = hashlib.sha1(), bytes(64 * 1000)
    for _ in range(count // 1000):
        hasher.update(blocks)


def cipher_blocks(key_len, direction):
    def work(count):
        cbc = Cipher(algorithms.AES(bytes(key_len)), modes.CBC(bytes(16)))
        context = getattr(cbc, direction)()
        blocks, room = bytes(16 * 1000), bytearray(16 * 1000 + 15)
        for _ in range(count // 1000):
            context.update_into(blocks, room)
    return work


def measures(program):
    """What is measured, its low count and its high count."""
    found = {
        "iteration": (ours(program, "pbkdf2"), 20_000, 220_000),
        "their iteration": (theirs(iterations), 20_000, 220_000),
        "both": (ours(program, "both"), 2, 22),
        "each": (ours(program, "each"), 2, 22),
        "their both": (theirs(both_keys), 2, 22),
        "block": (ours(program, "sha1"), 50_000, 550_000),
        "their block": (theirs(hash_blocks), 50_000, 550_000),
        "unseal": (ours(program, "unseal"), 100, 5_100),
    }
    for direction, bits in ((it, bits) for it in ("encrypt", "decrypt") for bits in (128, 256)):
        found[f"{direction}{bits}"] = (ours(program, f"{direction}{bits}"), 50_000, 550_000)
        if backend:
            found[f"their {direction}{bits}"] = (theirs(cipher_blocks(bits // 8, f"{direction}or")), 50_000, 550_000)
    return found


def show_hashes(took):
    share = 200 * took["block"] / took["iteration"]
    print(f"hashlib's {ssl.OPENSSL_VERSION}")
    print(f"a block of SHA-1: {took['block']:.0f} ns, OpenSSL {took['their block']:.0f} ns")
    print(f"an iteration of PBKDF2: {took['iteration']:.0f} ns, OpenSSL {took['their iteration']:.0f} ns;", end=" ")
    print(f"two blocks of SHA-1 are {share:.0f} % of ours")
    print(f"both keys at 4096 iterations: {took['both'] / 1e6:.2f} ms, a call for each", end=" ")
    print(f"{took['each'] / 1e6:.2f} ms ({took['both'] / took['each']:.2f}),", end=" ")
    print(f"OpenSSL's PBKDF2 alone {took['their both'] / 1e6:.2f} ms")


def show_ciphers(took):
    if backend:
        print(f"cryptography's {backend.openssl_version_text()}")
    for word, done, bits in ((*it, bits) for it in (("encrypt", "enciphered"), ("decrypt", "deciphered")) for bits in (128, 256)):
        beside = f", OpenSSL {took[f'their {word}{bits}']:.0f} ns" if backend else ""
        print(f"a block of AES-{bits} {done}: {took[f'{word}{bits}']:.0f} ns{beside}")
    print(f"a sealed text of 1000 bytes refused: {took['unseal'] / 1e3:.1f} us")


def main():
    parser = Parser(__doc__, "ratio R, the time of our iteration over OpenSSL's", "it can't be measured")
    parser.add_argument("rounds", nargs="?", type=int, default=25, metavar="ROUNDS", help="by default 25")
    rounds = parser.parse_args().rounds
    took = nanos(measures(built("support_bench")), rounds)
    show_hashes(took)
    show_ciphers(took)
    print(f"ratio {took['iteration'] / took['their iteration']:.2f}")


if __name__ == "__main__":
    main()

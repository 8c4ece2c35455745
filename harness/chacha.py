"""The bytes that the program draws of a seed: ChaCha20 (RFC 8439 section 2.3), where counter and nonce are a block's number."""

import struct

MASK = 0xFFFFFFFF
# the words that are mixed with each other: columns, then diagonals
MIXED = ((0, 4, 8, 12), (1, 5, 9, 13), (2, 6, 10, 14), (3, 7, 11, 15),
         (0, 5, 10, 15), (1, 6, 11, 12), (2, 7, 8, 13), (3, 4, 9, 14))


def mix(state, a, b, c, d):
    for to, added, other, bits in ((a, b, d, 16), (c, d, b, 12), (a, b, d, 8), (c, d, b, 7)):
        state[to] = (state[to] + state[added]) & MASK
        turned = state[other] ^ state[to]
        state[other] = (turned << bits | turned >> (32 - bits)) & MASK


def block(seed, number):
    """The 64 bytes of a block."""
    first = struct.unpack("<16I", b"expand 32-byte k" + seed + number.to_bytes(16, "little"))
    state = list(first)
    for _ in range(10):
        for places in MIXED:
            mix(state, *places)
    return struct.pack("<16I", *((word + before) & MASK for word, before in zip(state, first)))

"""What the ends of a replay draw from its seed, from docs/FORMATS.md ('Drawn words') and docs/RULES.md ('Settings') alone. Nothing
here calls the program under test.
"""

import struct
import uuid as uuids

CONSTANTS = b"expand 32-byte k"
QUARTERS = [(n, n + 4, n + 8, n + 12) for n in range(4)] + [(n, 4 + (n + 1) % 4, 8 + (n + 2) % 4, 12 + (n + 3) % 4) for n in range(4)]


def turned(word, count):
    return (word << count | word >> (32 - count)) & 0xFFFFFFFF


def quarter_round(words, a, b, c, d):
    """RFC 8439, 2.1."""
    for one, other, third, count in ((a, b, d, 16), (c, d, b, 12), (a, b, d, 8), (c, d, b, 7)):
        words[one] = (words[one] + words[other]) & 0xFFFFFFFF
        words[third] = turned(words[third] ^ words[one], count)


def chacha20(key):
    """The first 64 bytes of a key's stream, at the counter and the nonce 0 (RFC 8439, 2.3)."""
    begun = list(struct.unpack("<16I", CONSTANTS + key + bytes(16)))
    words = list(begun)
    for _ in range(10):
        for quarter in QUARTERS:
            quarter_round(words, *quarter)
    return struct.pack("<16I", *((one + other) & 0xFFFFFFFF for one, other in zip(begun, words)))


def line_uuid(seed, number):
    """The uuid of the item that a line puts: the first words of the line's seed."""
    mixed = seed[:24] + (int.from_bytes(seed[24:], "big") ^ number).to_bytes(8, "big")
    return str(uuids.UUID(bytes=chacha20(mixed)[:16], version=4))

"""Strings that the program seals open by another implementation, and the other way round."""

import base64
import random
import unittest

import independent
import program

MISSING = independent.missing()


def random_text(rng, size):
    """A text of so many bytes of UTF-8, of one to four bytes a character."""
    pieces, length = [], 0
    while length < size:
        limit = min(4, size - length)
        first, last = [(0x20, 0x7E), (0xA0, 0x7FF), (0x800, 0xD7FF), (0x10000, 0x10FFFF)][rng.randrange(limit)]
        piece = chr(rng.randint(first, last)).encode()
        pieces.append(piece)
        length += len(piece)
    return b"".join(pieces)


def random_uuid(rng):
    digits = "%032x" % rng.getrandbits(128)
    return "-".join([digits[:8], digits[8:12], digits[12:16], digits[16:20], digits[20:]])


@unittest.skipIf(MISSING, MISSING)
class Independent(unittest.TestCase):
    def test_sealed_strings_open(self):
        rng = random.Random(3)
        sizes = list(range(0, 50)) + [63, 64, 65, 255, 256, 4095, 4096, 4097, 100000, 1 << 20]
        for size in sizes:
            plain = random_text(rng, size)
            key, uuid = rng.randbytes(64), random_uuid(rng)
            identifier, nonce = rng.choice([("alice", "6e"), ("ü\"\\\t", "n" * 256), ("\u20ac" * 84, "\U0001f600")])
            cost = rng.choice(["1", "110000", "4294967295"])
            words = program.seal_words(uuid, key, identifier, cost, nonce)
            status, out, err = program.run(words, plain)
            self.assertEqual((status, err), (0, b""))
            self.assertTrue(out.endswith(b"\n"))
            text = out[:-1].decode()
            opened, params = independent.open_string(text, uuid, key)
            self.assertEqual(opened, plain)
            self.assertEqual(params, {"identifier": identifier, "pw_cost": int(cost), "pw_nonce": nonce, "version": "003"})
            self.assertEqual(text.split(":")[5], independent.params_part(identifier, int(cost), nonce))

    def test_strings_of_others_open(self):
        rng = random.Random(4)
        for size in list(range(0, 34)) + [4096, 50001]:
            plain = random_text(rng, size)
            key, uuid = rng.randbytes(64), random_uuid(rng)
            text = independent.seal(plain, uuid, key, "b@example.org", 110000, "00ff", rng.randbytes(16))
            for end in (b"", b"\n"):
                given = text.encode() + end
                self.assertEqual(program.run(program.open_words(uuid, key), given), (0, plain, b""))

    def test_the_iv_is_drawn_anew(self):
        first = program.run(program.seal_words(), b"x")[1]
        second = program.run(program.seal_words(), b"x")[1]
        self.assertNotEqual(first.split(b":")[3], second.split(b":")[3])

    def refused(self, text, line, uuid=program.UUID, key=program.KEY):
        status, out, err = program.run(program.open_words(uuid, key), text.encode())
        self.assertEqual((status, out, err), (3, b"", b"sn: " + line.encode() + b"\n"))

    def parts(self, plain=b"0123456789abcdef"):
        iv = bytes(range(16))
        return independent.seal(plain, program.UUID, program.KEY, "alice", 1, "6e", iv).split(":")

    def test_each_part_changed(self):
        parts = self.parts()
        join = independent.join
        ciphertext = len(parts[4])
        self.refused(join(parts[:5]), "string.1 Parts 5")
        self.refused("", "string.1 Parts 1")
        self.refused(join(parts + ["x"]), "string.1 Parts 7")
        self.refused(join(["004"] + parts[1:]), "string.2 Version 0")
        self.refused(join([parts[0], parts[1].upper().replace("0", "A")] + parts[2:]), "string.3 Hash 4")
        self.refused(join(parts[:2] + [parts[2][:-1] + "A"] + parts[3:]), "string.4 Uuid 69")
        self.refused(join(parts[:3] + [parts[3][:-1]] + parts[4:]), "string.5 Iv 106")
        self.refused(join(parts[:4] + ["AAAAAAAAAAAAAAAAAAAAAB=="] + parts[5:]), "string.6 Ciphertext 139")
        self.refused(join(parts[:5] + ["e30="]), "string.7 Params %d" % (139 + ciphertext + 1))

    def test_what_the_hash_covers(self):
        parts = self.parts()
        uuid = parts[2][:-1] + "2"
        self.refused(":".join(parts), "items.8 OtherUuid " + parts[2], uuid=uuid)
        moved = parts[:2] + [uuid] + parts[3:]
        computed = independent.mac(program.KEY[32:], uuid, parts[3], parts[4])
        self.refused(":".join(moved), "items.9 HashMismatch %s %s" % (parts[1], computed), uuid=uuid)
        for place, changed in ((3, "0" * 32), (4, "B" + parts[4][1:])):
            other = list(parts)
            other[place] = changed
            computed = independent.mac(program.KEY[32:], other[2], other[3], other[4])
            self.refused(":".join(other), "items.9 HashMismatch %s %s" % (parts[1], computed))
        other_key = program.KEY[:63] + b"\x00"
        computed = independent.mac(other_key[32:], parts[2], parts[3], parts[4])
        self.refused(":".join(parts), "items.9 HashMismatch %s %s" % (parts[1], computed), key=other_key)

    def test_the_params_are_not_covered(self):
        parts = self.parts(b"plain")
        parts[5] = independent.params_part("bob", 7, "ff")
        self.assertEqual(program.run(program.open_words(), ":".join(parts).encode()), (0, b"plain", b""))

    def test_padding_and_text(self):
        iv = bytes(16)

        def sealed_blocks(blocks):
            data = independent.aes_cbc(program.KEY[:32], iv, blocks, decrypt=False)
            return independent.join(
                independent.plain_parts(data, program.UUID, program.KEY, "alice", 1, "6e", iv)
            )

        for block in (bytes(16), b"\x11" * 16, b"x" * 14 + b"\x01\x02", b"x" * 12 + b"\x04\x03\x04\x04", b"y" * 16):
            self.refused(sealed_blocks(block), "items.10 Padding")
        self.refused(sealed_blocks(b"ab\xff" + b"\x0d" * 13), "items.11 NotUtf8 2")
        self.refused(sealed_blocks(b"\xe2\x82" + b"\x0e" * 14), "items.11 NotUtf8 0")
        whole = sealed_blocks(b"\x10" * 16)
        self.assertEqual(program.run(program.open_words(), whole.encode()), (0, b"", b""))


if __name__ == "__main__":
    unittest.main()

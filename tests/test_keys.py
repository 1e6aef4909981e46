"""The proved keys, salts and check values beside those of Python's `hashlib`, at random values.

No command derives keys, so the proved functions are called in `crates/sn_bench` as a shared library. `tests/run` builds
it and names it in SN_LIBRARY; SN_SEED repeats the random values of an earlier run.
"""

import ctypes
import os
import random
import unittest

import independent
from test_independent import random_text

LIBRARY = os.environ.get("SN_LIBRARY")
CASES = 200
LARGEST_COST = 4294967295


def given(data):
    return data, ctypes.c_size_t(len(data))


class Proved:
    """The functions of the library. Each answers None where the library answers false."""

    def __init__(self, path):
        self.library = ctypes.CDLL(path)
        self.library.sn_bench_derive.restype = ctypes.c_bool
        self.library.sn_bench_salt.restype = ctypes.c_bool
        self.library.sn_bench_check.restype = None

    def keys(self, password, identifier, cost, nonce):
        parts = [ctypes.create_string_buffer(32) for _ in range(3)]
        words = [*given(password), *given(identifier), ctypes.c_uint32(cost), *given(nonce)]
        if not self.library.sn_bench_derive(*words, *parts):
            return None
        return tuple(part.raw for part in parts)

    def salt(self, identifier, cost, nonce):
        digits = ctypes.create_string_buffer(64)
        words = [*given(identifier), ctypes.c_uint32(cost), *given(nonce)]
        if not self.library.sn_bench_salt(*words, digits):
            return None
        return digits.raw

    def check_value(self, pw):
        check = ctypes.create_string_buffer(32)
        self.library.sn_bench_check(pw, check)
        return check.raw


def random_size(rng, least, largest):
    """A size that is often small and often at a bound."""
    if rng.random() < 0.2:
        return rng.choice([least, largest])
    return rng.randint(least, min(largest, rng.choice([8, 40, largest])))


def random_cost(rng):
    """Every hundredth is some ten thousand, the others are up to a few thousand."""
    if rng.random() < 0.01:
        return rng.randint(10000, 60000)
    return rng.randint(1, rng.choice([1, 10, 300, 4000]))


@unittest.skipUnless(LIBRARY, "the proved functions are no shared library, as tests/run makes one where `cc` is installed")
class Keys(unittest.TestCase):
    @classmethod
    def setUpClass(cls):
        cls.proved = Proved(LIBRARY)
        cls.seed = int(os.environ.get("SN_SEED") or random.SystemRandom().getrandbits(32))
        print("test_keys: SN_SEED=%d repeats these random values" % cls.seed, flush=True)

    def agree(self, password, identifier, cost, nonce):
        proved, words = self.proved, (identifier, cost, nonce)
        told = (password, *words)
        self.assertEqual(proved.salt(*words), independent.salt(*words), told)
        keys = proved.keys(password, *words)
        self.assertEqual(keys, independent.keys(password, *words), told)
        self.assertEqual(proved.check_value(keys[0]), independent.check_value(keys[0]), told)

    def test_random_values(self):
        rng = random.Random(self.seed)
        for _ in range(CASES):
            password = random_text(rng, random_size(rng, 0, 1000))
            identifier = random_text(rng, random_size(rng, 1, 254))
            nonce = random_text(rng, random_size(rng, 1, 256))
            self.agree(password, identifier, random_cost(rng), nonce)

    def test_bounds(self):
        self.agree(b"", b"a", 1, b"n")
        self.agree(b"", b"i" * 254, 1, b"n" * 256)
        self.agree(b"p", "é".encode() * 127, 2, "日".encode() * 85 + b"n")
        self.agree(b"p", b":SF:003:1:", 3, b"\0\n")
        self.agree(b"correct horse", b"alice@example.org", 110000, b"00" * 32)
        # The password is an HMAC key, and a key of more than 128 bytes is hashed first.
        for size in (127, 128, 129, 1 << 16):
            self.agree(b"p" * size, b"alice", 2, b"6e")
        # The salt alone, since the largest cost derives no key within a test.
        for cost in (9, 10, 99, 100, 999999999, 1000000000, LARGEST_COST):
            self.assertEqual(self.proved.salt(b"a", cost, b"n"), independent.salt(b"a", cost, b"n"))

    def test_values_out_of_their_bounds(self):
        for identifier, cost, nonce in (
            (b"", 1, b"n"),
            (b"i" * 255, 1, b"n"),
            (b"a", 0, b"n"),
            (b"a", 1, b""),
            (b"a", 1, b"n" * 257),
            (b"\xff", 1, b"n"),
            (b"a", 1, b"\xed\xa0\x80"),
        ):
            self.assertIsNone(self.proved.salt(identifier, cost, nonce))
            self.assertIsNone(self.proved.keys(b"p", identifier, cost, nonce))
        self.assertIsNone(self.proved.keys(b"\xc3", b"a", 1, b"n"))


if __name__ == "__main__":
    unittest.main()

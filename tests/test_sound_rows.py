"""`sn serve` over sound rows with one change: it serves them, or tells the first kind of which some row isn't sound then, and leaves
the file as it is. What is asked of each kind stands in docs/FORMATS.md.
"""

import struct
import unittest

import independent
import program
import rule
import serving
import test_serve

PART = independent.params_part("alice@example.org", 110000, "4c6f")


def number(*values):
    return b"".join(struct.pack(">Q", value) for value in values)


def uuid(last):
    return "00000000-0000-4000-8000-%012d" % last


def string(last):
    """A 003 string that names the uuid with these last digits."""
    return ":".join(["003", "0" * 64, uuid(last), "0" * 32, "AAAAAAAAAAAAAAAAAAAAAA==", PART])


def store(last, accounts):
    return rule.put(1, b"", b"\7" * 32 + number(last, accounts))


def account(which, identifier, generation):
    return rule.put(2, number(which), rule.counted(identifier.encode()) + number(generation) + b"\t" * 32)


def keys(which, generation, nonce):
    return rule.put(3, number(which, generation), struct.pack(">I", 1) + rule.counted(nonce.encode()))


def item(last, account, created, updated, *strings):
    """An item, deleted where no strings are given but with those that follow True."""
    deleted = not strings or strings[0] is True
    strings = [text.encode() for text in strings if text is not True] or [b"", b""]
    value = number(account) + rule.counted(b"Note") + number(created, updated) + bytes([deleted]) + b"".join(map(rule.counted, strings))
    return rule.put(4, bytes.fromhex(uuid(last).replace("-", "")), value)


def removed(kind, key):
    return bytes((0, kind)) + rule.counted(key)


# Two accounts, of which the first changed its password once; an item of each, the second's deleted.
SOUND = [
    store(5, 2),
    account(1, "ann@home", 2),
    account(2, "bo@home", 1),
    keys(1, 1, "01"),
    keys(1, 2, "02"),
    keys(2, 1, "01"),
    item(1, 1, 1, 4, string(1), string(1)),
    item(2, 2, 5, 5),
]

STILL_SOUND = {
    "the same again": store(5, 2),
    "a greater last stamp": store(6, 2),
    "a third item with stamps between": item(3, 1, 1, 3),
}

# By the kind that is told.
UNSOUND = {
    1: {
        "no row of the store": removed(1, b""),
        "too many accounts": store(5, 1_000_001),
    },
    2: {
        "an account that isn't counted": store(5, 1),
        "an account of number 0": account(0, "cy@home", 1),
        "an account that is counted and isn't there": store(5, 3),
        "no first account": removed(2, number(1)),
        "another's identifier": account(2, "ann@home", 1),
        "generation 0": account(2, "bo@home", 0),
        "a generation too many": account(2, "bo@home", 1_000_001),
    },
    3: {
        "a generation that isn't there": removed(3, number(1, 1)),
        "a present generation that isn't there": account(2, "bo@home", 2),
        "a generation past the present one": keys(1, 3, "03"),
        "a row of generation 0": keys(1, 0, "03"),
        "a generation of no account": keys(3, 1, "03"),
        "another generation's nonce": keys(1, 2, "01"),
    },
    4: {
        "an item of no account": item(3, 3, 2, 3),
        "a stamp of 0": item(3, 1, 0, 3),
        "stamps in the wrong order": item(3, 1, 3, 2),
        "a stamp past the last": item(3, 1, 1, 6),
        "a last stamp before an item's": store(4, 2),
        "another item's stamp": item(3, 1, 1, 4),
        "a deleted item's content": item(1, 1, 1, 4, True, string(1), ""),
        "a deleted item's item key": item(1, 1, 1, 4, True, "", string(1)),
        "a content of another uuid": item(1, 1, 1, 4, string(2), string(1)),
        "an item key of another uuid": item(1, 1, 1, 4, string(1), string(2)),
        "a content without the form": item(1, 1, 1, 4, "", string(1)),
        "an item key without the form": item(1, 1, 1, 4, string(1), "003"),
    },
}


class Rows(unittest.TestCase):
    def each_way(self, change):
        """The change in the one batch of the rows, and in one of its own."""
        for batches in ([*SOUND, change],), (SOUND, [change]):
            with serving.Store() as path:
                serving.make_store(path, *(b"".join(batch) for batch in batches))
                yield path

    def test_sound_rows_are_served(self):
        for name, change in STILL_SOUND.items():
            for path in self.each_way(change):
                with self.subTest(name), serving.Served(path, 1) as server:
                    given, wanted = test_serve.Answers.TABLE[0]
                    self.assertEqual(test_serve.raw(server.port, given), wanted)
                    self.assertEqual(server.ended(), (0, b""))

    def test_the_first_kind_is_told(self):
        for kind, changes in UNSOUND.items():
            for name, change in changes.items():
                for path in self.each_way(change):
                    with self.subTest(name):
                        self.is_refused(path, kind)

    def is_refused(self, path, kind):
        with open(path, "rb") as file:
            before = file.read()
        self.assertEqual(program.run(["serve", "--store", path, "--port", "0", "--requests", "1"]), (9, b"", b"sn: rows %d\n" % kind))
        with open(path, "rb") as file:
            self.assertEqual(file.read(), before)

    def test_one_kind_before_another(self):
        """Of several kinds that aren't sound the first is told."""
        changes = [(kind, change) for kind, names in UNSOUND.items() for change in list(names.values())[-1:]]
        for place, (kind, _) in enumerate(changes):
            with serving.Store() as path:
                serving.make_store(path, b"".join(SOUND + [change for _, change in changes[place:]]))
                self.is_refused(path, kind)


if __name__ == "__main__":
    unittest.main()

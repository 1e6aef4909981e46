"""Rows of a device, each time with one change, and the first kind for which its store isn't opened. What is asked of each kind
stands in docs/FORMATS.md."""

import os
import unittest

import devices
import program
import serving

OWNER, SET, ITEM = 17, 18, 19
PRESENT, OLDER, ASKED = 0, 1, 2
NONE, GONE = b"\0", b"\1"


def uuid(last):
    return "00000000-0000-4000-8000-%012d" % last


def string(last):
    """A string in form of the uuid with this end, or one that names none."""
    return serving.string_of(uuid(last), b"", "alice@example.org", 110000, "4c6f").encode() if last else b"003:"


def sealed(content, key=None):
    """A body of strings of the uuids with these ends."""
    return b"\2" + devices.text(string(content)) + devices.text(string(content if key is None else key))


def owner(next_number):
    return devices.owner_row(next_number=next_number)


def fresh(number, last):
    """A new item, which wasn't sent."""
    return drafted(number, last, sealed(last))


def drafted(number, last, now, posted=NONE):
    return devices.item_row(number, uuid(last), now, posted=posted)


def first(stamp, stale, base, now=NONE, posted=NONE):
    """The first item, with these parts."""
    return devices.item_row(1, uuid(1), now, stamp=stamp, stale=stale, base=base, posted=posted)


OWN = sealed(1)
# An account with its set, an item that stands on a version, and a new one; and the same in a change of password.
SETTLED = owner(3) + devices.set_row(PRESENT) + first(5, False, OWN) + fresh(2, 2)
CHANGING = SETTLED + devices.set_row(OLDER)


class Rows(unittest.TestCase):
    SOUND = (
        ("a set that is asked for", SETTLED + devices.set_row(ASKED)),
        ("an older set", CHANGING),
        ("a number that is left out", SETTLED + owner(4)),
        ("another item", SETTLED + fresh(0, 3)),
        ("a version that is to be sent again", SETTLED + first(5, True, OWN)),
        ("a deletion that was sent", SETTLED + first(5, False, OWN, GONE, GONE)),
        ("all bodies", SETTLED + first(5, True, OWN, OWN, OWN)),
        ("a deletion of what was sent and isn't answered", SETTLED + drafted(2, 2, GONE, sealed(2))),
        ("a deletion of what was never sent", SETTLED + drafted(2, 2, GONE)),
    )
    # Nothing stands without an account. An account has a present set, and a set is asked for without an older one. Items have
    # numbers below the next.
    CHANGES = (
        ("a set and no account", devices.set_row(PRESENT), OWNER),
        ("an item and no account", fresh(1, 1), OWNER),
        ("an account that is gone", SETTLED + devices.remove_row(OWNER, b""), OWNER),
        ("an account and no set", owner(1), SET),
        ("a present set that is gone", CHANGING + devices.remove_row(SET, b"\0"), SET),
        ("a set that is asked for beside an older one", CHANGING + devices.set_row(ASKED), SET),
        ("a next number that is too small", SETTLED + owner(2), ITEM),
    )
    NUMBERS = (
        ("the next number", SETTLED + fresh(3, 3), ITEM),
        ("one past the next", SETTLED + fresh(4, 3), ITEM),
        ("the first item's uuid, before it", SETTLED + fresh(0, 1), ITEM),
        ("the first item's uuid, behind it", SETTLED + fresh(2, 1), ITEM),
    )
    PARTS = (
        ("a version without a stamp", SETTLED + first(None, False, OWN, OWN), ITEM),
        ("a stamp without a version", SETTLED + first(5, False, NONE, OWN), ITEM),
        ("a version that is deleted", SETTLED + first(5, False, GONE), ITEM),
        ("neither version nor draft", SETTLED + first(None, False, NONE), ITEM),
        ("no version to be sent again", SETTLED + first(None, True, NONE, OWN), ITEM),
        ("what was sent of no draft", SETTLED + first(5, False, OWN, NONE, OWN), ITEM),
    )
    STRINGS = (
        ("a version's content of another uuid", SETTLED + first(5, False, sealed(2, 1)), ITEM),
        ("a version's key of none", SETTLED + first(5, False, sealed(1, 0)), ITEM),
        ("a draft's content of none", SETTLED + drafted(2, 2, sealed(0, 2)), ITEM),
        ("a draft's key of another uuid", SETTLED + drafted(2, 2, sealed(2, 1)), ITEM),
        ("the content of another uuid that was sent", SETTLED + drafted(2, 2, sealed(2), sealed(1, 2)), ITEM),
        ("the key of none that was sent", SETTLED + drafted(2, 2, sealed(2), sealed(2, 0)), ITEM),
    )

    def listed(self, rows):
        """Status, output and the line of a list over a store with these rows, which stays as it was."""
        held = devices.store_of(rows)
        with devices.folder() as place:
            store = os.path.join(place, "device")
            with open(store, "wb") as file:
                file.write(held)
            found = program.run(["list", "--store", store])
            with open(store, "rb") as file:
                self.assertEqual(file.read(), held)
        return found

    def test_sound_rows(self):
        for name, rows in (("settled", SETTLED), *self.SOUND):
            with self.subTest(name):
                status, out, err = self.listed(rows)
                self.assertEqual((status, err), (0, b""))
                items = {uuid(1), uuid(2)} | ({uuid(3)} if name == "another item" else set())
                self.assertEqual({line.split(" ")[0] for line in out.decode().splitlines()}, items)

    def test_rows_that_are_not_sound(self):
        for name, rows, kind in self.CHANGES + self.NUMBERS + self.PARTS + self.STRINGS:
            with self.subTest(name):
                self.assertEqual(self.listed(rows), (9, b"", b"sn: rows %d\n" % kind))


if __name__ == "__main__":
    unittest.main()

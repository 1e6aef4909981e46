"""Items that are sealed again under another set of keys: a device adopts a new set over a store that was laid out here, and takes
versions that carry its older one. Each string is byte for byte what the independent implementation gives, with the vector that
the string has."""

import collections
import unittest
import uuid as uuids

import devices
import independent
import scripted
import test_device

PASSWORD = "the third password"
UUID, OTHER = "00000000-0000-4000-8000-000000000001", "00000000-0000-4000-8000-000000000002"
# How a set is named in a string, and its two keys that open items. The third is the one that a password gives.
Set = collections.namedtuple("Set", "cost nonce keys")
FIRST, SECOND = Set(1, "6e", bytes(range(64))), Set(110000, "ff", bytes(range(64, 128)))
THIRD = Set(110000, "third", b"".join(devices.keys_of("alice", PASSWORD, 110000, "third")[1:]))
FOURTH = Set(4294967295, "fourth", bytes(range(128, 192)))
NONE, DELETED = b"\0", b"\1"
CONTENT = '{"text":"0123456789abcdef"}', '{"text":"\u017c"}'


def part_of(named):
    return independent.params_part("alice", named.cost, named.nonce)


def strings(text, held, of_key=None, of_content=None):
    """The content's string of a text and its key's string, sealed under a set. They carry its parameters, or those of others."""
    own, (cost, nonce, _) = bytes(range(100, 164)), of_key or held
    key = independent.seal(own.hex().encode(), UUID, held.keys, "alice", cost, nonce, b"v" * 16)
    cost, nonce, _ = of_content or of_key or held
    return independent.seal(text.encode(), UUID, own, "alice", cost, nonce, b"c" * 16), key


def sealed(pair):
    return b"\2" + b"".join(devices.text(each.encode()) for each in pair)


def changed_hash(string):
    return string.replace(string.split(":")[1], "0" * 64)


def set_row(which, named):
    return devices.set_row(which, named.cost, named.nonce.encode(), b"p" * 32 + named.keys)


A1, A2, A3 = (strings(CONTENT[0], each) for each in (FIRST, SECOND, THIRD))
B1, B2 = (strings(CONTENT[1], each) for each in (FIRST, SECOND))
# None of these opens under the first set or the second: of another set, a key that the first set doesn't open, a key and a content
# that carry other parameters, and changed hashes of the two.
CLOSED = (
    strings(CONTENT[0], FOURTH),
    strings(CONTENT[0], FOURTH, FIRST),
    strings(CONTENT[0], FIRST, SECOND, FIRST),
    strings(CONTENT[0], FIRST, FIRST, SECOND),
    (A1[0], changed_hash(A1[1])),
    (changed_hash(A2[0]), A2[1]),
)


class Case(test_device.Case):
    def laid_out(self, port, *items, older=True):
        """A device whose present set is the second, the older one the first, with these rows of items."""
        sets = set_row(0, SECOND) + (set_row(1, FIRST) if older else b"")
        return self.device(port, holds=devices.store_of(devices.owner_row(next_number=len(items)) + sets + b"".join(items)))

    def rows(self, device):
        """The items' rows, by rising local number."""
        return [row for (kind, _), row in sorted(device.rows().items()) if kind == 19]

    def sealed_again(self, found, before, held, under):
        """The strings are those of before, with the key sealed under another set. The vector that was drawn for it."""
        content, enc = found
        self.assertEqual(content, before[0].rpartition(":")[0] + ":" + part_of(under))
        own, _ = independent.open_string(before[1], UUID, held.keys)
        vector = bytes.fromhex(enc.split(":")[3])
        self.assertEqual(enc, independent.seal(own, UUID, under.keys, "alice", under.cost, under.nonce, vector))
        self.assertNotEqual(vector, bytes.fromhex(before[1].split(":")[3]))
        return vector


class Adopted(Case):
    """A sign-in with the third set. What opens under the second or the first is sealed again under it."""

    # A version, a draft and what was sent of it; whether the version is to be sent again, before and then.
    ROWS = (
        ((B2, NONE, NONE), 0, 1),
        ((A1, B2, DELETED), 0, 1),
        ((NONE, B2, A1), 0, 0),
        ((A2, A1, A1), 1, 1),
        ((A2, DELETED, B1), 0, 1),
        ((A3, B2, CLOSED[0]), 0, 0),
        ((CLOSED[0], DELETED, NONE), 1, 1),
        ((A3, NONE, NONE), 0, 0),
        *(((pair, NONE, NONE), 0, 0) for pair in CLOSED),
    )

    def signed_in(self, row):
        """The one row of an item behind a sign-in."""
        said = [scripted.params_body(cost=THIRD.cost, nonce=THIRD.nonce), scripted.account_body(token="another")]
        with scripted.Scripted(lambda asked: scripted.answer(200, said.pop(0))) as server:
            device = self.laid_out(server.port, row)
            device.sign_in("alice", PASSWORD)
        present, older, asked = device.sets()
        self.assertEqual((present[:2], b"".join(present[3:]), device.session()), (THIRD[:2], THIRD.keys, "another"))
        self.assertEqual((older[:2], b"".join(older[3:]), asked), (SECOND[:2], SECOND.keys, None))
        (found,) = self.rows(device)
        return found

    def test_each_place(self):
        for number, (places, stale, then) in enumerate(self.ROWS):
            with self.subTest(number):
                bodies = [sealed(each) if isinstance(each, tuple) else each for each in places]
                stamp = None if places[0] == NONE else 7
                row = devices.item_row(0, UUID, bodies[1], stamp=stamp, stale=bool(stale), base=bodies[0], posted=bodies[2])
                name, kind, has_stamp, found_stamp, found_stale, *found = self.signed_in(row)
                self.assertEqual((name, kind, has_stamp, found_stamp), (uuids.UUID(UUID).bytes, "Note", stamp is not None, stamp or 0))
                self.assertEqual(found_stale, then)
                vectors = [self.vector_of(*each) for each in zip(found, places)]
                drawn = [vector for vector in vectors if vector is not None]
                self.assertEqual(len(drawn), len(set(drawn)))

    def vector_of(self, found, before):
        """The vector that was drawn for a place, or None where it stays as it was."""
        for held, open_strings in ((FIRST, (A1, B1)), (SECOND, (A2, B2))):
            if before in open_strings:
                return self.sealed_again(found, before, held, THIRD)
        self.assertEqual(found, {NONE: "none", DELETED: "deleted"}.get(before, before))
        return None


class Taken(Case):
    """A version that carries the older set alone is sealed again under the present one, and sent again; others stay as they came."""

    def synced(self, pair):
        """What a device keeps of an item that it takes over, and what it sends next."""
        item = {"uuid": UUID, "content": pair[0], "enc_item_key": pair[1]}
        sent = []

        def says(asked):
            sent.append(asked.json()["items"])
            if len(sent) == 1:
                return scripted.answer(200, scripted.sync_body(retrieved=[scripted.stored(item)]))
            return scripted.RESET

        with scripted.Scripted(says) as server:
            device = self.laid_out(server.port)
            device.run("sync")
        (row,) = self.rows(device)
        return row, sent[1:]

    def test_of_the_older_set(self):
        for pair in (A1, B1):
            row, ((item,),) = self.synced(pair)
            self.sealed_again(row[5], pair, FIRST, SECOND)
            self.assertEqual((row[4], item["uuid"], (item["content"], item["enc_item_key"])), (1, UUID, row[5]))

    def test_of_others(self):
        for pair in (A2, B2, A3, *CLOSED):
            row, sent = self.synced(pair)
            self.assertEqual((row[4], row[5], sent), (0, pair, []))


class Finished(Case):
    """The older set goes with a sync, where no item has anything of it; and another change may begin."""

    def test_versions(self):
        for bodies, gone in (
            ((A2,), True),
            ((A1,), False),
            ((A2, A1), False),
            ((A3,), True),
            ((CLOSED[0],), True),
            # What carries its parameters in both strings, whether it opens or not; one of the two isn't enough.
            ((CLOSED[1],), False),
            ((CLOSED[3],), True),
            ((CLOSED[4],), False),
        ):
            rows = [self.row(number, body) for number, body in enumerate(bodies)]
            with self.subTest(bodies=bodies), scripted.Scripted(lambda asked: scripted.answer(200, scripted.sync_body())) as server:
                device = self.laid_out(server.port, *rows)
                device.sync()
                self.assertEqual(device.sets()[1] is None, gone)

    def row(self, number, pair):
        """An item of this number that stands on a version of these strings."""
        uuid = (UUID, OTHER)[number]
        return devices.item_row(number, uuid, NONE, stamp=7 + number, base=sealed([each.replace(UUID, uuid) for each in pair]))

    def test_a_change_beside_another_set(self):
        """An item that carries another set than the present one bars a change, though no older set is held."""
        for pair, line in ((A2, None), (A3, UUID), (A1, UUID), (CLOSED[3], UUID)):
            said = []

            def says(asked):
                said.append(asked.target)
                return scripted.answer(200, scripted.sync_body()) if asked.target == "/items/sync" else scripted.RESET

            with self.subTest(pair=pair[1]), scripted.Scripted(says) as server:
                device = self.laid_out(server.port, self.row(0, pair), older=False)
                found = device.run("passwd", given=b"another\n")
                expected = (5, b"", b"sn: link fault\n") if line is None else (3, b"", b"sn: rekey.1 ChangeRunning %s\n" % line.encode())
                self.assertEqual(found, expected)
                self.assertEqual(said, ["/items/sync"] + (["/auth/change_pw"] if line is None else []))


if __name__ == "__main__":
    unittest.main()

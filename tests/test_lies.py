"""Servers that answer what they may not, over loopback: where a device says so, and that it keeps what it had."""

import collections
import random
import re
import unittest
import uuid as uuids

import devices
import scripted
from devices import DELETED, Device
from test_device import UUID, Case, held

OTHER = "00000000-0000-4000-8000-000000000002"


def says(**members):
    return lambda item: scripted.answer(200, scripted.sync_body(**{name: value(item) for name, value in members.items()}))


def body(value):
    return lambda item: scripted.answer(200, value)


def without(name):
    return body({member: value for member, value in scripted.sync_body().items() if member != name})


def of_kind(kind, given):
    """A conflict that gives an item: the server's version, or in other kinds what it didn't take."""
    return {"type": kind, "server_item" if kind == "sync_conflict" else "unsaved_item": given}


def conflict(item):
    return of_kind("sync_conflict", scripted.stored(item))


def deleted(item):
    return {**item, "content": None, "enc_item_key": None, "deleted": True}


def no_string(item):
    """A list of the item with a content that is no string."""
    return [scripted.stored({**item, "content": "x"})]


def another_conflict(item):
    return [conflict(another(item))]


def another(item, name="uuid", value=OTHER):
    """The item with another uuid, and strings that name it, or with something else that is another."""
    if name == "uuid":
        return {**item, "uuid": OTHER, "content": item["content"].replace(item["uuid"], OTHER), "enc_item_key": item["enc_item_key"].replace(item["uuid"], OTHER)}
    return {**item, name: value}


def exchanged(item):
    """The item with its key's string for its content's, and the reverse."""
    return {**item, "content": item["enc_item_key"], "enc_item_key": item["content"]}


def other_string(item):
    """The content's string with another digit in its vector, still in form."""
    parts = item["content"].split(":")
    parts[3] = "0" * 32
    return {**item, "content": ":".join(parts)}


ONE = scripted.answer(200, scripted.sync_body())


class Lying(Case):
    """A server that answers what it may not, and where the device says so. The draft stays as it was sent."""

    TABLE = (
        ("nothing", lambda item: b"", "head"),
        ("no HTTP", lambda item: b"hello\r\n\r\n", "head"),
        ("a body alone", lambda item: b"{}", "head"),
        ("half a head", lambda item: b"HTTP/1.1 200 OK\r\nContent-Length: 2\r\n", "head"),
        ("less than its length", lambda item: ONE[:-1], "head"),
        ("more than its length", lambda item: ONE + b" ", "head"),
        ("two lengths", lambda item: ONE.replace(b"Connection: close", b"Content-Length: 1"), "head"),
        ("no length", lambda item: ONE.replace(b"Content-Length", b"Content-Width"), "head"),
        ("a head too long", lambda item: ONE.replace(b"\r\n\r\n", b"\r\nX: " + b"x" * 16384 + b"\r\n\r\n"), "head"),
        ("65 fields", lambda item: ONE.replace(b"\r\n\r\n", b"\r\nX: x" * 63 + b"\r\n\r\n"), "head"),
        ("a length too great", lambda item: re.sub(rb"Length: \d+", b"Length: 33554433", ONE), "head"),
        ("a list", body([]), "json"),
        ("no JSON", body(b"{"), "json"),
        ("no UTF-8", body(b'{"a":"\xff"}'), "json"),
        ("nested too deep", body(b'{"a":' * 128 + b"1" + b"}" * 128), "json"),
        ("no members", body({}), "member conflicts"),
        ("no cursor", without("cursor_token"), "member cursor_token"),
        ("no retrieved items", without("retrieved_items"), "member retrieved_items"),
        ("no saved items", without("saved_items"), "member saved_items"),
        ("no token", without("sync_token"), "member sync_token"),
        ("conflicts that are no list", body({**scripted.sync_body(), "conflicts": {}}), "member conflicts"),
        ("saved items that are no list", body({**scripted.sync_body(), "saved_items": {}}), "member saved_items"),
        ("a cursor that is no text", says(cursor=lambda item: 1), "member cursor_token"),
        ("an item in a conflict of another kind", says(conflicts=lambda item: [of_kind("other", scripted.stored(item))]), "member type"),
        ("a conflict of another kind", body(scripted.sync_body(conflicts=[{"type": "x"}])), "member type"),
        ("a stamp out of form", says(saved=lambda item: [{**scripted.stored(item), "updated_at": "now"}]), "member updated_at"),
        ("a uuid out of form", says(saved=lambda item: [scripted.stored({**item, "uuid": "x"})]), "member uuid"),
        ("a type of no bytes", says(saved=lambda item: [scripted.stored({**item, "content_type": ""})]), "member content_type"),
        ("another uuid saved", says(saved=lambda item: [scripted.stored(another(item))]), "saved 0"),
        ("another string saved", says(saved=lambda item: [scripted.stored(other_string(item))]), "saved 0"),
        ("strings exchanged", says(saved=lambda item: [scripted.stored(exchanged(item))]), "saved 0"),
        ("saved as deleted", says(saved=lambda item: [scripted.gone(item["uuid"], 5)]), "saved 0"),
        ("saved twice", says(saved=lambda item: [scripted.stored(item)] * 2), "saved 1"),
        ("saved and in a conflict", says(saved=lambda item: [scripted.stored(item)], conflicts=lambda item: [conflict(item)]), "conflict 0"),
        ("a conflict of another uuid", says(conflicts=another_conflict), "conflict 0"),
        ("a conflict twice", says(conflicts=lambda item: [conflict(other_string(item))] * 2), "conflict 1"),
        ("conflicts of two kinds", says(conflicts=lambda item: [conflict(deleted(item)), of_kind("content_error", scripted.stored(item))]), "conflict 1"),
        ("a conflict's string out of form", says(conflicts=lambda item: [conflict({**item, "content": "x"})]), "conflict 0"),
        ("saved, and then the conflict", says(saved=lambda item: [scripted.stored(another(item))], conflicts=another_conflict), "saved 0"),
        ("saved, and then the others", says(saved=lambda item: [scripted.stored(exchanged(item))], conflicts=another_conflict, retrieved=no_string), "saved 0"),
        ("a conflict, and then an item", says(conflicts=another_conflict, retrieved=no_string), "conflict 0"),
        ("stamps that stand", says(retrieved=lambda item: [scripted.gone(UUID, 5), scripted.gone(OTHER, 5)]), "retrieved 1"),
        ("stamps that fall", says(retrieved=lambda item: [scripted.gone(UUID, 5), scripted.gone(OTHER, 4)]), "retrieved 1"),
        ("a string out of form", says(retrieved=no_string), "retrieved 0"),
        ("a string of another item", says(retrieved=lambda item: [scripted.stored({**item, "uuid": OTHER})]), "retrieved 0"),
        ("151 items", says(retrieved=lambda item: [scripted.gone(str(uuids.UUID(int=n)), n) for n in range(1, 152)]), "retrieved 150"),
        ("a cursor and no item", says(cursor=lambda item: "Mjox"), "cursor"),
        ("an item, and then the cursor", says(retrieved=no_string, cursor=lambda item: "Mjox"), "retrieved 0"),
        ("a refusal without an error", lambda item: scripted.answer(500, {}), "member error"),
        ("a refusal without a tag", lambda item: scripted.answer(500, {"error": {"tag": 1}}), "member error"),
        ("a refusal of an empty error", lambda item: scripted.answer(500, {"error": {}}), "member error"),
        ("a refusal that is a list", lambda item: scripted.answer(500, []), "json"),
        ("a refusal that is no JSON", lambda item: scripted.answer(500, b"<html>"), "json"),
    )

    def setUp(self):
        super().setUp()
        device = self.device(name="draft")
        self.uuid = device.put('{"t":"a"}')
        self.draft = held(device)

    def test_each(self):
        for name, lie, place in self.TABLE:
            with self.subTest(name):
                self.lied(lie, place)

    def lied(self, lie, place):
        said = []

        def answers(asked):
            (item,) = asked.json()["items"]
            said.append(asked)
            return lie(item) if len(said) == 1 else scripted.answer(200, scripted.sync_body([scripted.stored(item)]))

        with scripted.Scripted(answers) as server:
            device = self.device(server.port, holds=self.draft)
            self.refused(device.run("sync"), 11, "answer " + place)
            self.assertEqual(device.list(), ['%s draft 9 "Note"' % self.uuid])
            row = device.items()[self.uuid]
            self.assertEqual((row.base, row.now, row.posted), (None, '{"t":"a"}', '{"t":"a"}'))
            device.sync()
            # The same was sent again.
            self.assertEqual(said[0].data, said[1].data)
            self.assertEqual(device.list(), ['%s clean 9 "Note"' % self.uuid])

    def test_a_page_of_as_many_as_may_be(self):
        """It is taken, and the draft is sent again behind it."""
        page = scripted.answer(200, scripted.sync_body(retrieved=[scripted.gone(str(uuids.UUID(int=n)), n) for n in range(1, 151)]))
        said = []

        def answers(asked):
            said.append(asked.json())
            return page if len(said) == 1 else scripted.RESET

        with scripted.Scripted(answers) as server:
            device = self.device(server.port, holds=self.draft)
            self.refused(device.run("sync"), 5, "link fault")
        self.assertEqual(said[0]["items"], said[1]["items"])
        self.assertEqual([each["sync_token"] for each in said], [None, "Mjox"])
        self.assertEqual(device.list(), ['%s draft 9 "Note"' % self.uuid])

    def test_conflicts_that_are_taken(self):
        """A content that the server doesn't take stays a draft, and goes again; a uuid that another has is changed."""
        for kind in ("content_error", "uuid_conflict"):
            said = []

            def answers(asked):
                (item,) = asked.json()["items"]
                said.append(item)
                if len(said) == 1:
                    return scripted.answer(200, scripted.sync_body(conflicts=[of_kind(kind, item)]))
                return scripted.answer(200, scripted.sync_body([scripted.stored(item)]))

            with scripted.Scripted(answers) as server:
                device = self.device(server.port, holds=self.draft)
                device.sync()
                self.assertEqual(said[0]["uuid"] == said[1]["uuid"], kind == "content_error")
                self.assertEqual(device.list(), ['%s clean 9 "Note"' % said[1]["uuid"]])

    def test_of_an_item_with_a_version(self):
        """What takes a version's place has no lower stamp, and its uuid is no other account's."""
        device = self.device(holds=self.draft)
        with scripted.Scripted(lambda asked: scripted.answer(200, scripted.sync_body(map(scripted.stored, asked.json()["items"])))) as server:
            device.server = "127.0.0.1:%d" % server.port
            device.sync()
        device.edit(self.uuid, '{"t":"b"}')
        edited = held(device)
        for lie, place in (
            (says(saved=lambda item: [scripted.stored(item, 4)]), "saved 0"),
            (says(conflicts=lambda item: [of_kind("uuid_conflict", item)]), "conflict 0"),
            (says(saved=lambda item: [scripted.stored(item, 5)]), None),
        ):
            with self.subTest(place=place), scripted.Scripted(lambda asked: lie(*asked.json()["items"])) as server:
                device = self.device(server.port, holds=edited)
                if place is None:
                    device.sync()
                else:
                    self.refused(device.run("sync"), 11, "answer " + place)
                self.assertEqual(device.items()[self.uuid].base, '{"t":"a"}' if place else '{"t":"b"}')

    def test_answers_to_accounts(self):
        params = scripted.answer(200, scripted.params_body())
        for command, answers, place in (
            ("register", [scripted.answer(200, {})], "member token"),
            ("register", [scripted.answer(200, {"token": "a b", "user": {}})], "member token"),
            ("register", [scripted.answer(200, {"token": "t", "user": {"email": "alice"}})], "member uuid"),
            ("register", [scripted.answer(200, {"token": "t", "user": []})], "member user"),
            ("register", [b""], "head"),
            ("signin", [scripted.answer(200, scripted.params_body(identifier="bob"))], "member identifier"),
            ("signin", [scripted.answer(200, {**scripted.params_body(), "version": "004"})], "member version"),
            ("signin", [scripted.answer(200, {**scripted.params_body(), "pw_cost": "110000"})], "member pw_cost"),
            ("signin", [scripted.answer(200, scripted.params_body(cost=0))], "member pw_cost"),
            ("signin", [params, scripted.answer(200, [])], "json"),
            ("signin", [params, scripted.answer(200, {"token": "", "user": {}})], "member token"),
        ):
            with self.subTest(command=command, place=place):
                left = list(answers)
                with scripted.Scripted(lambda asked: left.pop(0)) as server:
                    device = Device(self.path("%s-%d" % (command, server.port)), server.port)
                    self.refused(device.run(command, "--identifier", "alice", given=b"p\n"), 11, "answer " + place)
                    self.assertEqual((device.rows(), left), ({}, []))


class Rounds(Case):
    """A server that never comes to an end."""

    MOST = 10000

    def pages(self, last):
        """Each page has one deleted item and a cursor, but the one of this number."""
        count = 0

        def says(asked):
            nonlocal count
            count += 1
            cursor = None if count == last else "cursor-%d" % count
            return scripted.answer(200, scripted.sync_body(retrieved=[scripted.gone(UUID, count)], cursor=cursor))

        return scripted.Scripted(says, keeps=False)

    def test_pages_without_end(self):
        with self.pages(None) as server:
            device = self.device(server.port)
            self.refused(device.run("sync"), 3, "client.8 RoundsUsed")
            self.assertEqual(server.count, self.MOST)
            self.assertEqual(device.rows()[17, ()][3:5], ("Mjox", "cursor-%d" % self.MOST))

    def test_as_many_as_may_be(self):
        with self.pages(self.MOST) as server:
            device = self.device(server.port)
            device.sync()
            self.assertEqual(server.count, self.MOST)

    def test_a_draft_that_is_never_answered(self):
        """While a draft is left, the device asks on."""
        empty = scripted.answer(200, scripted.sync_body())
        for most, count, status, line in ((100, 101, 5, "link fault"), (self.MOST, self.MOST, 3, "client.8 RoundsUsed")):
            with scripted.Scripted(lambda asked: empty if server.count <= most else scripted.RESET, keeps=False) as server:
                device = self.device(server.port)
                uuid = device.put('{"t":"a"}')
                self.refused(device.run("sync"), status, line)
                self.assertEqual(server.count, count)
                self.assertEqual(device.list(), ['%s draft 9 "Note"' % uuid])


# An item of an arbitrary answer: whether its uuid is the draft's, its type, which strings it has, and its stamp.
Choice = collections.namedtuple("Choice", "is_drafts kind strings stamp")


class Arbitrary(Case):
    """Some hundreds of arbitrary answers to a device with one draft that was sent: whatever it is told, an item goes on with the
    draft's content, unless a version with that was told, and another one."""

    COUNT = 400
    STRINGS = {
        "own": lambda item: item,
        "none": deleted,
        "exchanged": exchanged,
        "content twice": lambda item: {**item, "enc_item_key": item["content"]},
        "no string": lambda item: {**item, "content": "x"},
    }
    DRAWN = ("own", "own", "own", "none", "none", "exchanged", "content twice", "no string")

    def choice(self, place):
        draw = self.draw
        return Choice(draw.random() < 0.75, draw.choice(("Note", "Note", "Note", "Tag")), draw.choice(self.DRAWN), 10 * place + draw.randrange(10))

    def choices(self):
        return [self.choice(place) for place in range(self.draw.choice((0, 1, 2)))]

    def item(self, choice, sent):
        """The item of a choice, beside the one that was sent."""
        found = self.STRINGS[choice.strings]({**sent, "content_type": choice.kind})
        return scripted.stored(found if choice.is_drafts else {**found, "uuid": UUID}, choice.stamp)

    def answer(self, conflicts, retrieved, saved, sent):
        """An answer's bytes, one in four with an arbitrary byte somewhere."""
        lists = {"conflicts": [of_kind(kind, self.item(choice, sent)) for kind, choice in conflicts]}
        lists |= {name: [self.item(each, sent) for each in those] for name, those in (("retrieved", retrieved), ("saved", saved))}
        data = bytearray(scripted.answer(200, scripted.sync_body(cursor=self.draw.choice((None, None, None, "Mjox")), **lists)))
        if self.draw.random() < 0.25:
            data[self.draw.randrange(len(data))] = self.draw.randrange(256)
        return bytes(data)

    def texts(self, device):
        """What the store holds of each item that opens and isn't deleted: its draft, else the version that it stands on."""
        rows = device.rows()
        keys = b"".join(rows[18, (0,)][3:])
        for (kind, _), row in rows.items():
            if kind == 19:
                base, now, _ = row[5:]
                try:
                    text = devices.opened(base if now == "none" else now, str(uuids.UUID(bytes=row[0])), keys)
                except AssertionError:
                    continue
                if text != DELETED:
                    yield text

    def holds(self, answer_to, replaced):
        """How a sync ends that is so answered, behind which the draft goes on, where it isn't replaced."""
        said = []

        def answers(asked):
            said.append(asked)
            return answer_to(asked.json()["items"][0]) if len(said) == 1 else scripted.RESET

        with scripted.Scripted(answers) as server:
            device = self.device(server.port, holds=self.draft)
            status, out, _ = device.run("sync")
        self.assertEqual(out, b"" if status else b"ok\n")
        self.assertEqual(len(device.list()), sum(kind == 19 for kind, _ in device.rows()))
        self.assertTrue(replaced or any(text.startswith('{"t":"a"') for text in self.texts(device)))
        return status

    def test_no_draft_is_lost(self):
        self.draw = random.Random(8)
        device, ends = self.device(name="draft"), collections.Counter()
        device.put('{"t":"a"}')
        self.draft = held(device)
        for number in range(self.COUNT):
            kinds = [self.draw.choice(("sync_conflict", "sync_conflict", "uuid_conflict", "content_error"))] if self.draw.random() < 0.5 else []
            conflicts = [(kind, self.choice(0)) for kind in kinds]
            retrieved, saved = self.choices(), self.choices()
            versions = [choice[1:3] == ("Note", "own") for choice in retrieved if choice.is_drafts]
            told = any(versions) or any(choice[:3] == (True, "Note", "own") for _, choice in conflicts)
            with self.subTest(number=number, conflicts=conflicts, retrieved=retrieved, saved=saved):
                ends[self.holds(lambda sent: self.answer(conflicts, retrieved, saved, sent), told and not all(versions))] += 1
        print(", ".join("status %d: %d" % each for each in sorted(ends.items())), end=" ... ", flush=True)
        # Answers that were taken whole, taken before the next request, and refused.
        for status in (0, 5, 11):
            self.assertGreater(ends[status], 10, status)


if __name__ == "__main__":
    unittest.main()

"""Two devices with one note: what each does to it, who sends first, and what comes of it, worked out by hand. Each meeting is
carried out as a script, and as commands of two devices and a server; so are requests and answers that are lost."""

import collections
import contextlib
import functools
import os
import unittest

import devices
import scripted
import serving
from devices import DELETED, Device
from test_replay import TWO, Replays

PASSWORD = "one password for both"
LINK_FAULT = 5, b"", b"sn: link fault\n"

# What either device does: nothing, DELETED, or the content that it gives the note; who syncs first, then the other and the first
# again; and the items as a show has them then.
Meeting = collections.namedtuple("Meeting", "name a b first items")

MEETINGS = (
    Meeting("nothing is done", None, None, "A", ['#1 @1000 set 1 {"t":"a"}']),
    Meeting("an edit reaches the other", None, '{"t":"c"}', "B", ['#1 @1001 set 1 {"t":"c"}']),
    Meeting("a deletion reaches the other", DELETED, None, "A", ["#1 @1001 deleted"]),
    Meeting(
        "both edits are kept, the later sent as a copy",
        '{"t":"b"}',
        '{"t":"c"}',
        "A",
        ['#1 @1001 set 1 {"t":"b"}', '#2 @1002 set 1 {"t":"c","conflict_of":"#1"}'],
    ),
    Meeting("equal edits are one", '{"t":"b"}', '{"t":"b"}', "A", ['#1 @1001 set 1 {"t":"b"}']),
    Meeting("a deletion gives way to an edit", '{"t":"b"}', DELETED, "A", ['#1 @1001 set 1 {"t":"b"}']),
    Meeting(
        "an edit outlives a deletion",
        '{"t":"b"}',
        DELETED,
        "B",
        ["#1 @1001 deleted", '#2 @1002 set 1 {"t":"b","conflict_of":"#1"}'],
    ),
    Meeting("two deletions are one", DELETED, DELETED, "A", ["#1 @1001 deleted"]),
)


def line_of(name, does):
    """The line of a script in which a device does this, where it does something."""
    if does is None:
        return []
    return ["del %s #1" % name if does == DELETED else "edit %s #1 %s" % (name, does)]


class AsScripts(Replays):
    def test_each_meeting(self):
        for meeting in MEETINGS:
            with self.subTest(meeting.name):
                other = {"A": "B", "B": "A"}[meeting.first]
                lines = TWO + ['put A {"t":"a"}', "sync A", "sync B", *line_of("A", meeting.a), *line_of("B", meeting.b)]
                lines += ["sync " + name for name in (meeting.first, other, meeting.first)] + ["show"]
                shown = ["item " + item for item in meeting.items] + ["device A alice sets 1", "device B alice sets 1", "= ok"]
                self.lines_report(lines, {len(lines): ["account alice set 1", *shown]})


@functools.lru_cache(maxsize=None)
def prepared():
    """The bytes of the stores of two devices and their server, and the uuid of the note that all of them have."""
    with devices.folder() as place, serving.Served(os.path.join(place, "server")) as server:
        a, b = (Device(os.path.join(place, name), server.port) for name in "ab")
        a.register("alice", PASSWORD)
        uuid = a.put('{"t":"a"}')
        a.sync()
        b.sign_in("alice", PASSWORD)
        b.sync()
        server.kill()
        held = {}
        for name in ("a", "b", "server"):
            with open(os.path.join(place, name), "rb") as file:
                held[name] = file.read()
        return held, uuid


@contextlib.contextmanager
def both():
    """Two devices with one note, each behind a proxy that may lose a message, their server's store, and the note's uuid."""
    held, uuid = prepared()
    with devices.folder() as place:
        for name, data in held.items():
            with open(os.path.join(place, name), "wb") as file:
                file.write(data)
        store = os.path.join(place, "server")
        with serving.Served(store) as server, scripted.Dropping(server.port) as first, scripted.Dropping(server.port) as second:
            a, b = (Device(os.path.join(place, name), proxy.port) for name, proxy in zip("ab", (first, second)))
            yield a, b, first, store, uuid


class AsCommands(unittest.TestCase):
    def accepted(self, store):
        """The contents of all versions that the server ever had, in the order of their stamps; None is that of a deletion."""
        with open(store, "rb") as file:
            moments = devices.versions_then(file.read(), "alice", PASSWORD)
        found = {version.stamp: version.content for last in moments for version in last.values()}
        return [found[stamp] for stamp in sorted(found)]

    def does(self, device, uuid, does):
        if does == DELETED:
            device.delete(uuid)
        elif does is not None:
            device.edit(uuid, does)

    def shows(self, device, mark, contents):
        """The device lists just these contents, each with this mark."""
        self.assertEqual(sorted(device.contents().values()), sorted(contents))
        self.assertEqual(sorted(line.split(" ", 1)[1] for line in device.list()), sorted('%s %d "Note"' % (mark, len(each)) for each in contents))

    def test_each_meeting(self):
        for meeting in MEETINGS:
            with self.subTest(meeting.name), both() as (a, b, _, store, uuid):
                self.does(a, uuid, meeting.a)
                self.does(b, uuid, meeting.b)
                one, other = (a, b) if meeting.first == "A" else (b, a)
                for device in (one, other, one):
                    device.sync()
                # What a show has of an item behind its stamp, the note's uuid for its label.
                last = [item.split(" ", 2)[2].removeprefix("set 1 ").replace("#1", uuid) for item in meeting.items]
                contents = [content for content in last if content != "deleted"]
                for device in (a, b):
                    self.shows(device, "clean", contents)
                versions = sorted(devices.versions(store, "alice", PASSWORD).values(), key=lambda version: version.stamp)
                self.assertEqual([version.content or "deleted" for version in versions], last)
                # The first version of the note, and what was accepted since.
                count = 1 + sum("@1000" not in item for item in meeting.items)
                self.assertEqual(len(self.accepted(store)), count)

    def loses(self, device, proxy, what, number):
        """A sync that loses this."""
        proxy.lose(what, number)
        self.assertEqual(device.run("sync"), LINK_FAULT)
        proxy.lose(None, 0)

    def test_a_lost_request(self):
        """It is sent again, and nothing happened before that."""
        with both() as (a, _, proxy, store, uuid):
            a.edit(uuid, '{"t":"x"}')
            self.loses(a, proxy, "request", 1)
            self.shows(a, "draft", ['{"t":"x"}'])
            self.assertEqual(self.accepted(store), ['{"t":"a"}'])
            a.sync()
            self.shows(a, "clean", ['{"t":"x"}'])
            self.assertEqual(self.accepted(store), ['{"t":"a"}', '{"t":"x"}'])

    def test_lost_answers(self):
        """What was accepted isn't accepted again, and a later edit stands on it; what the first of two answers settled stays."""
        with both() as (a, b, proxy, store, uuid):
            a.edit(uuid, '{"t":"x"}')
            self.loses(a, proxy, "answer", 1)
            a.edit(uuid, '{"t":"y"}')
            self.shows(a, "draft", ['{"t":"y"}'])
            self.loses(a, proxy, "answer", 2)
            self.shows(a, "draft", ['{"t":"y"}'])
            self.assertEqual(a.items()[uuid].base, '{"t":"x"}')
            a.sync()
            self.shows(a, "clean", ['{"t":"y"}'])
            a.edit(uuid, '{"t":"z"}')
            self.loses(a, proxy, "answer", 1)
            a.delete(uuid)
            a.sync()
            b.sync()
            for device in (a, b):
                self.shows(device, "clean", [])
            self.assertEqual(self.accepted(store), ['{"t":"a"}', '{"t":"x"}', '{"t":"y"}', '{"t":"z"}', None])


class ManyNotes(unittest.TestCase):
    def test_more_than_an_answer_gives(self):
        """A request sends 150 items and asks for as many: two devices have all of 151 behind one sync each."""
        with devices.folder() as place, serving.Served(os.path.join(place, "server")) as server:
            a, b = (Device(os.path.join(place, name), server.port) for name in "ab")
            a.register("alice", PASSWORD)
            lines = ['%s clean 2 "Note"' % a.put("{}") for _ in range(151)]
            a.sync()
            b.sign_in("alice", PASSWORD)
            b.sync()
            for device in (a, b):
                self.assertEqual(device.list(), lines)
                self.assertEqual([row.base for row in device.items().values()], ["{}"] * 151)


if __name__ == "__main__":
    unittest.main()

"""Two devices of one account whose user edits at random, and what must hold of them, whatever goes wrong meanwhile.

Each content has a number of its own, `{"n":17}`, so that what became of it can be told.
"""

import json
import os
import random

import devices
from devices import DELETED, Device, Row, shown

PASSWORD = "one password for both"
COMMANDS = "put", "put", "edit", "edit", "edit", "del", "sync", "sync"


def number_of(content):
    return json.loads(content)["n"]


def drafts(items):
    """The numbers of the contents that wait to be sent."""
    return {number_of(row.now) for row in items.values() if row.now not in (None, DELETED)}


def numbers(items):
    """The numbers of all contents that the device shows."""
    return {number_of(shown(row)) for row in items.values() if shown(row) != DELETED}


def lines_of(items):
    """What `list` is to say of these rows."""
    lines = []
    for uuid, row in items.items():
        mark = "clean" if row.now is None else "deleted" if row.now == DELETED else "draft"
        length = 0 if mark == "deleted" else len(shown(row).encode())
        lines.append("%s %s %d %s" % (uuid, mark, length, json.dumps(row.kind)))
    return lines


class Pair:
    """Two devices, registered and signed in over this port."""

    def __init__(self, case, folder, port, seed):
        self.case, self.store = case, os.path.join(folder, "server")
        self.drawn, self.count = random.Random(seed), 0
        self.devices = [Device(os.path.join(folder, name), port) for name in "ab"]
        self.devices[0].register("alice", PASSWORD)
        self.devices[1].sign_in("alice", PASSWORD)

    def choose(self):
        """A device, a command, and the item and the content that are the command's."""
        device, command = self.drawn.choice(self.devices), self.drawn.choice(COMMANDS)
        living = [uuid for uuid, row in device.items().items() if shown(row) != DELETED]
        if command in ("edit", "del") and not living:
            command = "put"
        uuid = self.drawn.choice(living) if command in ("edit", "del") else None
        content = None
        if command in ("put", "edit"):
            self.count += 1
            content = '{"n":%d}' % self.count
        return device, command, uuid, content

    @staticmethod
    def words(device, command, uuid):
        return device.words(command, *(["--uuid", uuid] if uuid else []))

    def holds(self, device, command, uuid, content, before, acknowledged):
        """The device has all of the command or nothing, and where it was acknowledged all of it; `acknowledged` is what the
        command wrote, the empty text where it wrote nothing."""
        after = device.items()
        self.case.assertEqual(device.list(), lines_of(after))
        if command == "sync":
            self.case.assertLessEqual(drafts(before), numbers(after))
            return
        changed = {each for each in before.keys() | after.keys() if before.get(each) != after.get(each)}
        if not changed and not acknowledged:
            return
        self.case.assertEqual(len(changed), 1, (command, changed, acknowledged))
        (name,) = changed
        old, new = before.get(name), after.get(name)
        if command == "put":
            self.case.assertEqual((old, new), (None, Row("Note", 0, 0, None, content, None)))
            self.case.assertIn(acknowledged, ("", name + "\n"))
        elif command == "edit":
            self.case.assertEqual((name, new), (uuid, old._replace(now=content)))
        else:
            never_sent = old.base is None and old.posted is None
            self.case.assertEqual((name, new), (uuid, None if never_sent else old._replace(now=DELETED)))

    @staticmethod
    def were_versions(those, file):
        """The numbers among these that the server had had by the bytes of its store."""
        ever = devices.versions_ever(file, "alice", PASSWORD).values() if those else ()
        return those & {number_of(content) for contents in ever for content in contents if content is not None}

    def together(self):
        """The next syncs bring both devices together: no draft is lost, no content is there twice. What waits on one device may be
        a version by then, whose answer was lost, and the other device may have edited that since: then the edit is there."""
        waiting = [drafts(device.items()) for device in self.devices]
        with open(self.store, "rb") as file:
            before = file.read()
        those = self.devices[:]
        self.drawn.shuffle(those)
        devices.until_quiet(*those)
        found = self.devices[0].contents()
        self.case.assertEqual(self.devices[1].contents(), found)
        counted = sorted(number_of(content) for content in found.values())
        self.case.assertEqual(counted, sorted(set(counted)))
        gone = set().union(*waiting) - set(counted)
        self.case.assertEqual(self.were_versions(gone, before), gone)
        last = devices.versions(self.store, "alice", PASSWORD)
        self.case.assertEqual({uuid: version.content for uuid, version in last.items() if version.content is not None}, found)
        for device in self.devices:
            self.case.assertEqual({uuid: row.base for uuid, row in device.items().items()}, found)

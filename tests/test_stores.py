"""Files in a store's place: starts that were cut off, what is refused and where, and payloads worked out by hand, as batches of a
device's store and of a server's."""

import os
import unittest

import devices
import journal
import program
import row_bytes
import serving

HEADER = journal.header(b"D")
NO_ACCOUNT = 3, b"", b"sn: client.1 NoAccount\n"
# A change that removes a device's account, and one that removes a server's row.
DEVICES, SERVERS = devices.remove_row(17, b""), devices.remove_row(1, b"")


def of_a_server(file):
    """The same file with a server for its owner, and a device for the other one."""
    return file.replace(b"JOURNALS", b"JOURNAL-").replace(b"JOURNALD", b"JOURNALS").replace(b"JOURNAL-", b"JOURNALD")


class Stores(unittest.TestCase):
    STARTS = (
        b"",
        b"P",
        b"\0",
        b"S",
        b"\0N",
        b"\0\1\2\3",
        b"\0NSYNC-JOURNALS1",
        b"\0NSYNC-JOURNALD1\1",
        b"\0" + b"\xff" * 16,
        b"\7NSYNC-JOURNALD1\0",
        HEADER + b"\0",
    )
    REFUSED = (
        (b"PK", "foreign 0"),
        (b"SN", "foreign 2"),
        (b"SNx", "foreign 2"),
        (b"SNSYNC-JOURNALS1\0", "foreign 14"),
        (b"SNSYNC-JOURNALD2\0", "foreign 15"),
        (b"SNSYNC-JOURNALD", "foreign 15"),
        (b"\0NSYNC-JOURNALD1\0\0", "foreign 0"),
        (b"\7NSYNC-JOURNALD1\1", "foreign 0"),
        (b"\7NSYNC-JOURNALD1", "foreign 0"),
        (HEADER, "damaged 16"),
        (HEADER + b"\1", "damaged 16"),
        (HEADER + b"\1\0\0\0", "damaged 16"),
        (HEADER + b"\1\0\0\0\1", "damaged 16"),
        (HEADER + b"\1\0\0\0\2a", "damaged 16"),
        (HEADER + b"\1\x40\0\0\1a", "damaged 16"),
        (HEADER + b"\1\0\0\0\1a", "damaged 22"),
        # The journal's own damage is told before that of its first payload.
        (HEADER + b"\1\0\0\0\1a\1b", "damaged 22"),
        (HEADER + b"\1\0\0\0\1\0\1\0", "damaged 22"),
    )
    ROWS = (
        (devices.store_of(b"\0"), "damaged 16"),
        (devices.store_of(DEVICES, SERVERS), "damaged 27"),
        (devices.store_of(SERVERS, DEVICES), "damaged 16"),
        (devices.store_of(DEVICES, DEVICES + DEVICES, b"", DEVICES[:-1]), "damaged 49"),
    )

    def found(self, file, command):
        """What a command makes of a store with these bytes, and the bytes that it leaves."""
        with devices.folder() as place:
            store = os.path.join(place, "store")
            with open(store, "wb") as held:
                held.write(file)
            found = command(store)
            with open(store, "rb") as held:
                return found, held.read()

    def listed(self, store):
        return program.run(["list", "--store", store])

    def served(self, store):
        """The same of a server, which is taken away once it listens."""
        with serving.Served(store, 1) as server:
            if server.port is None:
                status, line = server.ended()
                return status, b"", line
        return 0, b"listening", b""

    def test_starts(self):
        """They become a journal without batches."""
        for file in self.STARTS:
            with self.subTest(file=file):
                self.assertEqual(journal.payloads(file, b"D"), [])
                self.assertEqual(self.found(file, self.listed), (NO_ACCOUNT, HEADER + b"\0"))

    def test_refused(self):
        """The file stays."""
        for file, line in self.REFUSED:
            with self.subTest(file=file):
                kind, place = line.split(" ")
                with self.assertRaises(journal.Foreign if kind == "foreign" else journal.Damaged) as refusal:
                    journal.payloads(file, b"D")
                self.assertEqual(refusal.exception.args, (int(place),))
                told = 9, b"", b"sn: %s\n" % line.encode()
                self.assertEqual(self.found(file, self.listed), (told, file))
                self.assertEqual(self.found(of_a_server(file), self.served), (told, of_a_server(file)))

    def test_rows_of_another(self):
        for file, line in self.ROWS:
            with self.subTest(file=file):
                self.assertEqual(self.found(file, self.listed), ((9, b"", b"sn: %s\n" % line.encode()), file))

    def test_batches_of_any_number_of_changes(self):
        file = devices.store_of(DEVICES, DEVICES + DEVICES, b"")
        self.assertEqual((len(file), [len(payload) for payload in journal.payloads(file, b"D")]), (50, [6, 12, 0]))
        self.assertEqual(self.found(file + b"\1\0", self.listed), (NO_ACCOUNT, file + b"\1\0"))

    def test_payloads(self):
        """A payload of its owner's rows is taken, though the rows may not be sound; each other one is damage."""
        taken = {b"D": 0, b"S": 0}
        for payload, *_ in row_bytes.rows():
            for owner, command in ((b"D", self.listed), (b"S", self.served)):
                with self.subTest(payload=payload[:80].hex(), owner=owner):
                    (status, _, line), _ = self.found(devices.store_of(payload, owner=owner), command)
                    if self.is_right(payload, owner):
                        taken[owner] += 1
                        self.assertTrue(status in (0, 3) or line.startswith(b"sn: rows "), line)
                    else:
                        self.assertEqual((status, line), (9, b"sn: damaged 16\n"))
        self.assertGreater(min(taken.values()), 10)

    def is_right(self, payload, owner):
        try:
            journal.changes(payload, owner)
            return True
        except journal.Fault:
            return False

    def test_what_is_written(self):
        """Batches and nothing else, of which each begins behind the one before."""
        with devices.folder() as place, serving.Served(os.path.join(place, "server")) as server:
            device = devices.Device(os.path.join(place, "device"), server.port)
            device.register("alice", "a password")
            device.put("{}")
            device.sync()
            for store, owner in ((device.store, b"D"), (os.path.join(place, "server"), b"S")):
                with open(store, "rb") as file:
                    held = file.read()
                self.assertEqual(held, devices.store_of(*journal.payloads(held, owner), owner=owner))


if __name__ == "__main__":
    unittest.main()

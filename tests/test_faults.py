"""`sn serve` where a call of the system fails: each call on the file of a first load and of a commit, and each allocation of a
request. Functions that fail stand in front of the C library's (`faults.c`).
"""

import os
import shutil
import subprocess
import tempfile
import unittest

import serving
from test_serve import raw, rows_of

PW, NEXT = "00" * 32, "22" * 32
ONE, OTHER, THIRD = ("00000000-0000-4000-8000-00000000000%d" % number for number in (1, 2, 3))
SOURCE = os.path.join(os.path.dirname(os.path.abspath(__file__)), "faults.c")

# The bytes of docs/FORMATS.md.
REGISTER = b'POST /auth HTTP/1.1\r\nContent-Length: 139\r\n\r\n{"email":"alice","password":"%s","pw_cost":1,"pw_nonce":"6e","version":"003"}' % PW.encode()
PARAMS = b"GET /auth/params?email=alice HTTP/1.1\r\n\r\n"
GIVEN = b"HTTP/1.1 200 OK\r\nContent-Type: application/json\r\nContent-Length: 66\r\n\r\n" + b'{"identifier":"alice","pw_cost":1,"pw_nonce":"6e","version":"003"}'
UNKNOWN = b'HTTP/1.1 404 Not Found\r\nContent-Type: application/json\r\nContent-Length: 27\r\n\r\n{"error":{"tag":"unknown"}}'


@unittest.skipUnless(shutil.which("cc"), "`cc` isn't installed")
class Faulty(unittest.TestCase):
    @classmethod
    def setUpClass(cls):
        cls.folder = tempfile.mkdtemp(prefix="sn-faults-")
        cls.library = os.path.join(cls.folder, "faults.so")
        subprocess.run(["cc", "-O1", "-shared", "-fPIC", "-o", cls.library, SOURCE], check=True)

    @classmethod
    def tearDownClass(cls):
        shutil.rmtree(cls.folder)

    def served(self, store, requests=serving.MOST_REQUESTS, **faults):
        environment = {"LD_PRELOAD": self.library, **{name: str(value) for name, value in faults.items()}}
        return serving.Served(store, requests, environment=environment)


class Disk(Faulty):
    """A first load makes eleven calls on the file that change it or wait for it, and a commit four: first a sync, and then each time a
    write and a sync."""

    LOAD, COMMIT = 11, 4
    # The write of the open gate behind which the account stands.
    GATE = LOAD + 2

    def parts(self, call):
        """How much is done of a write that fails: nothing, half its bytes, or all. A sync that fails leaves the bytes as they are, and
        if the write before it got lost, that is as if it had failed with nothing done."""
        return (0, 1, 2) if call % 2 else (0,)

    def fails(self, store, call, part):
        """The server whose call of this number fails ends, and has answered nothing."""
        with self.served(store, SN_DISK_FAULT=call, SN_DISK_PART=part) as server:
            self.assertEqual(server.port is None, call < self.LOAD)
            if server.port is not None:
                self.assertEqual(raw(server.port, REGISTER), b"")
            self.assertEqual(server.ended(), (4, b"fault\nsn: disk fault\n"))

    def gives(self, store, answer):
        with serving.Served(store, 1) as server:
            self.assertEqual(raw(server.port, PARAMS), answer)
            self.assertEqual(server.ended(), (0, b""))

    def test_each_call_that_fails(self):
        """The next load finds the account or not, and nothing half."""
        for call in range(self.LOAD + self.COMMIT):
            for part in self.parts(call):
                with self.subTest(call=call, part=part), serving.Store() as store:
                    self.fails(store, call, part)
                    begun = call > self.GATE or (call == self.GATE and part == 2)
                    if call >= self.LOAD:
                        self.assertEqual(len(rows_of(store)), 3 if begun else 1)
                    self.gives(store, GIVEN if begun else UNKNOWN)

    def test_no_call_more(self):
        with serving.Store() as store:
            with self.served(store, 1, SN_DISK_FAULT=self.LOAD + self.COMMIT) as server:
                self.assertTrue(raw(server.port, REGISTER).startswith(b"HTTP/1.1 200 OK\r\n"))
                self.assertEqual(server.ended(), (0, b""))
            self.gives(store, GIVEN)

    # A device's journal; one cut off in its first batch; parameters of an account, without the store's own row.
    REFUSED = (
        (b"SNSYNC-JOURNALD1\0", b"sn: foreign 14\n"),
        (b"SNSYNC-JOURNALS1\1\0\0\0\1", b"sn: damaged 16\n"),
        (
            b"SNSYNC-JOURNALS1\1\0\0\0\x23\1\3\0\0\0\x10\0\0\0\0\0\0\0\1\0\0\0\0\0\0\0\1\0\0\0\x09\0\0\0\1\0\0\0\1a\0",
            b"sn: rows 1\n",
        ),
    )

    def test_a_store_that_is_refused_is_synced_once(self):
        for held, line in self.REFUSED:
            for call, ended in ((0, (4, b"fault\nsn: disk fault\n")), (1, (9, line))):
                with serving.Store() as store:
                    with open(store, "wb") as file:
                        file.write(held)
                    before = os.stat(store).st_mtime_ns
                    with self.served(store, 1, SN_DISK_FAULT=call, SN_DISK_PART=0) as server:
                        self.assertEqual((server.port, server.ended()), (None, ended))
                    with open(store, "rb") as file:
                        self.assertEqual((file.read(), os.stat(store).st_mtime_ns), (held, before))


class Memory(Faulty):
    """An allocation that fails while a request is read ends the server; while it is carried out, it is refused. Nothing of it is kept
    then, on the disk or in memory, and the next request finds what was there."""

    REFUSED = (503, {"error": {"tag": "memory"}})

    def asked(self, server, request):
        """The answer to a request, or None where the server ended."""
        client = serving.Client(server.port)
        client.token = self.token
        try:
            return request(client)
        except (OSError, serving.http.client.HTTPException):
            return None

    def refused(self, server, request, look):
        """How often the request was refused, and the answer that is no refusal."""
        rows, count = rows_of(self.store), 0
        while (answer := self.asked(server, request)) == self.REFUSED:
            count += 1
            self.assertEqual(rows_of(self.store), rows)
            self.assertEqual(self.asked(server, look), self.before)
        return count, answer

    def each_allocation(self, request, look):
        """Makes the request until none of its allocations fails, and gives the answer. No allocation that failed is passed over."""
        number = 0
        while True:
            with self.served(self.store, SN_MEMORY_FAULT=number) as server:
                count, answer = self.refused(server, request, look)
                if answer is not None:
                    self.assertEqual(server.kill()[1], b"fault\n" * count)
                    self.assertGreater(number + count, 10)
                    return answer
                self.assertEqual(server.ended(), (8, b"fault\n" * (count + 1) + b"sn: memory\n"))
                number += count + 1

    REQUESTS = {
        "register": (lambda client: client.register("bob", PW), lambda client: client.ask("GET", "/auth/params?email=bob")),
        "params": (lambda client: client.ask("GET", "/auth/params?email=alice"), serving.Client.sync),
        "sign-in": (lambda client: client.sign_in("alice", PW), serving.Client.sync),
        "sync": (lambda client: client.sync([serving.item_of(OTHER, b"two"), serving.item_of(THIRD, b"three")]), serving.Client.sync),
        "change": (lambda client: client.change(PW, NEXT, "6f"), serving.Client.sync),
    }

    def test_each_allocation_of_each_request(self):
        for name, (request, look) in self.REQUESTS.items():
            with self.subTest(name), serving.Store() as self.store:
                with serving.Served(self.store) as server:
                    client = serving.Client(server.port)
                    self.assertEqual(client.register("alice", PW)[0], 200)
                    self.token = client.token
                    self.assertEqual(client.sync([serving.item_of(ONE, b"one")])[0], 200)
                    self.before = self.asked(server, look)
                self.assertEqual(self.each_allocation(request, look)[0], 200)
                changes = {"register": 2, "sync": 2, "change": 1}.get(name, 0)
                self.assertEqual(len(rows_of(self.store)), 4 + changes)


if __name__ == "__main__":
    unittest.main()

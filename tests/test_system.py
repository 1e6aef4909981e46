"""What the program meets of the system: files that may not grow or can't be synced, peers that break off or send too much, hosts
without an address, and the clock."""

import os
import resource
import signal
import socket
import subprocess
import time
import unittest

import devices
import journal
import program
import scripted
import serving
from test_device import Case, held, registered

# As many bytes as an answer may have, its head among them.
MOST_ANSWERED = 33570816
REQUEST = b"GET /auth/params?email=alice HTTP/1.1\r\nHost: a\r\n\r\n"
# A part of a name has at most 63 bytes (RFC 1035, 2.3.4), so nobody is asked for this one's address.
NO_HOST = "a" * 64 + ":80"


def run_limited(words, given, limit):
    """A run whose files may not grow past so many bytes."""

    def limits():
        signal.signal(signal.SIGXFSZ, signal.SIG_IGN)
        resource.setrlimit(resource.RLIMIT_FSIZE, (limit, limit))

    done = subprocess.run([program.SN, *words], input=given, stdout=subprocess.PIPE, stderr=subprocess.PIPE, preexec_fn=limits)
    return done.returncode, done.stdout, done.stderr


class Files(Case):
    """A write that fails behind some of its bytes: nothing of the change is there, and the device goes on."""

    FAULT = 4, b"", b"sn: disk fault\n"

    def faults(self, before, words, given):
        """A device with these bytes behind a command whose writes fail, for many a number of bytes, up to that with which it ends well."""
        for number in range(10000):
            with self.subTest(words=words, number=number):
                device = self.device(holds=before)
                limit = len(before) - 1 + (number if number < 10 else 29 * (number - 9))
                found = run_limited(device.words(*words), given, limit)
                if found[0] == 0:
                    break
                self.assertEqual(found, self.FAULT)
                yield device
        self.assertGreaterEqual(number, 10)

    def test_changes(self):
        first = self.device(name="first")
        uuid = first.put('{"t":"a"}')
        before = held(first)
        for words, given in ((["put"], b'{"t":"b"}'), (["edit", "--uuid", uuid], b'{"t":"b"}'), (["del", "--uuid", uuid], b"")):
            for device in self.faults(before, words, given):
                self.assertEqual(journal.rows(held(device), b"D"), journal.rows(before, b"D"))
                self.assertEqual(device.contents(), {uuid: '{"t":"a"}'})
                # What a failed write left is written over.
                device.ok("edit", "--uuid", uuid, given=b"{}")
                self.assertEqual(device.contents(), {uuid: "{}"})
                self.assertEqual(journal.payloads(held(device), b"D")[:-1], journal.payloads(before, b"D"))

    def test_a_fresh_store(self):
        """It is made by the next command."""
        for limit in range(17):
            device = self.device(holds=b"")
            self.assertEqual(run_limited(["list", "--store", device.store], b"", limit), self.FAULT)
            self.refused(device.run("list"), 3, "client.1 NoAccount")
        device = self.device(holds=b"")
        self.refused(run_limited(["list", "--store", device.store], b"", 17), 3, "client.1 NoAccount")

    def test_a_server(self):
        """It ends, and answers nothing that it hasn't kept."""
        asked = {"email": "alice", "password": "11" * 32, "pw_cost": 110000, "pw_nonce": "6e", "version": "003"}
        with serving.Served(self.path("server")):
            pass
        before = held(devices.Device(self.path("server"), 1))
        for limit in (len(before) - 1, len(before), len(before) + 1, len(before) + 100):
            with open(self.path("server"), "wb") as file:
                file.write(before)
            with serving.Served(self.path("server"), file_limit=limit) as server:
                with self.assertRaises((OSError, serving.http.client.HTTPException)):
                    serving.Client(server.port).ask("POST", "/auth", asked)
                self.assertEqual(server.ended(), (4, b"sn: disk fault\n"))
            self.assertEqual(devices.read(self.path("server"), b"S"), journal.rows(before, b"S"))

    def test_a_file_that_cannot_be_synced(self):
        """The null device takes each write and can't be synced."""
        for words in (["list"], ["put"], ["sync", "--server", "127.0.0.1:1"]):
            self.assertEqual(program.run([words[0], "--store", "/dev/null", *words[1:]], b"{}"), self.FAULT)


class Peers(Case):
    """A peer that breaks off ends its connection alone."""

    def broken(self, port, data):
        """Sends this, and resets the connection."""
        with socket.create_connection(("127.0.0.1", port), timeout=60) as peer:
            peer.sendall(data)
            scripted.reset(peer)

    def test_a_server_serves_on(self):
        with serving.Served(self.path("server")) as server:
            for data in (b"", REQUEST[:1], REQUEST[:-1], REQUEST, REQUEST * 100, b"POST /auth HTTP/1.1\r\nContent-Length: 9\r\n\r\n{"):
                self.broken(server.port, data)
                self.assertEqual(serving.Client(server.port).ask("GET", "/auth/params?email=alice")[0], 404)

    def test_an_answer_that_is_too_long(self):
        for size, status, line in ((MOST_ANSWERED, 11, "answer head"), (MOST_ANSWERED + 1, 5, "link fault")):
            with scripted.Scripted(lambda asked: b"x" * size) as server:
                self.refused(self.device(server.port).run("sync"), status, line)

    def test_a_host_without_an_address(self):
        device = self.device()
        device.server = NO_HOST
        self.refused(device.run("sync"), 5, "link fault")
        self.assertEqual(held(device), registered())

    def test_a_name(self):
        with scripted.Scripted(lambda asked: scripted.answer(200, scripted.sync_body())) as server:
            device = self.device()
            device.server = "localhost:%d" % server.port
            device.sync()
            self.assertEqual(server.asked[0].headers["Host"], device.server)


class Clock(Case):
    def test_stamps_are_microseconds_since_1970(self):
        with serving.Served(self.path("server")) as server:
            client = serving.Client(server.port)
            client.register("alice", "11" * 32)
            last = 0
            for number in range(3):
                began = time.time()
                uuid = "00000000-0000-4000-8000-%012d" % number
                client.sync([serving.item_of(uuid, b"one")])
                stamp = devices.read(self.path("server"), b"S")[4, (bytes.fromhex(uuid.replace("-", "")),)][3]
                self.assertTrue(began * 1e6 - 1 <= stamp <= time.time() * 1e6 + 1, stamp)
                self.assertGreater(stamp, last)
                last = stamp


if __name__ == "__main__":
    unittest.main()

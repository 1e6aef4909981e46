"""`sn serve` as a self-hoster runs it: over loopback, by curl and raw sockets, killed at any moment, its store read by
an independent reader."""

import hashlib
import json
import os
import random
import shutil
import socket
import subprocess
import threading
import time
import unittest
import uuid as uuids

import journal
import program
import serving

PW, NEXT, WRONG = "11" * 32, "22" * 32, "33" * 32
ITEM = "00000000-0000-4000-8000-000000000001"
# How often the server is killed: so many times, or, where nothing else is asked, no longer than this.
KILLS = int(os.environ.get("SN_KILLS", "200"))
KILLING_SECONDS = float("inf") if "SN_KILLS" in os.environ else 75
FEWEST_KILLS = 20

drawn = random.Random(20261127)


def rows_of(store):
    with open(store, "rb") as file:
        return journal.rows(file.read(), b"S")


def raw(port, data, cut=None):
    """All bytes that the server answers to these, sent in pieces of so many bytes, the sending end closed behind them."""
    with socket.create_connection(("127.0.0.1", port), timeout=60) as connection:
        for at in range(0, len(data), cut or len(data) or 1):
            connection.sendall(data[at : at + (cut or len(data))])
        connection.shutdown(socket.SHUT_WR)
        read = b""
        while piece := connection.recv(65536):
            read += piece
        return read


def answer(status, phrase, tag, *fields):
    """A refusal's bytes."""
    body = b'{"error":{"tag":"%s"}}' % tag
    lines = [b"HTTP/1.1 %d %s" % (status, phrase), b"Content-Type: application/json", b"Content-Length: %d" % len(body)]
    return b"\r\n".join([*lines, *fields, b"", body])


@unittest.skipUnless(shutil.which("curl"), "curl isn't installed")
class ByCurl(unittest.TestCase):
    def curl(self, port, path, body=None, token=None):
        words = ["curl", "-sS", "-w", "\n%{http_code}", "http://127.0.0.1:%d%s" % (port, path)]
        if body is not None:
            words += ["-H", "Content-Type: application/json", "--data-binary", json.dumps(body)]
        if token is not None:
            words += ["-H", "Authorization: Bearer " + token]
        text, status = subprocess.run(words, stdout=subprocess.PIPE, check=True).stdout.decode().rsplit("\n", 1)
        return int(status), json.loads(text)

    def test_an_account_from_its_registration_to_its_second_password(self):
        keys = {"pw_cost": 110000, "pw_nonce": "6e", "version": "003"}
        with serving.Store() as store, serving.Served(store, 6) as server:
            given = self.curl(server.port, "/auth", {"email": "alice", "password": PW, **keys})
            owner = {"email": "alice", "uuid": "00000000-0000-8000-8000-000000000001"}
            self.assertEqual((given[0], given[1]["user"]), (200, owner))
            given = self.curl(server.port, "/auth/params?email=alice")
            self.assertEqual(given, (200, {"identifier": "alice", **keys}))
            status, given = self.curl(server.port, "/auth/sign_in", {"email": "alice", "password": PW})
            self.assertEqual((status, given["user"]), (200, owner))
            token = given["token"]
            item = serving.item_of(ITEM, b"one")
            status, given = self.curl(server.port, "/items/sync", {"api": "20190520", "items": [item]}, token)
            self.assertEqual((status, given["conflicts"], given["retrieved_items"]), (200, [], []))
            saved = given["saved_items"][0]
            self.assertEqual({**saved, "created_at": None, "updated_at": None, "deleted": False}, {**item, "created_at": None, "deleted": False})
            gone = {"uuid": ITEM, "content_type": "Note", "deleted": True, "updated_at": saved["updated_at"]}
            status, given = self.curl(server.port, "/items/sync", {"api": "20190520", "items": [gone]}, token)
            self.assertEqual((status, given["saved_items"][0]["deleted"]), (200, True))
            change = {"current_password": PW, "new_password": NEXT, **keys, "pw_nonce": "6f"}
            status, given = self.curl(server.port, "/auth/change_pw", change, token)
            self.assertEqual((status, given["user"]), (200, owner))
            self.assertEqual(server.ended(), (0, b""))
            self.reads(store, token, given["token"], saved)

    def reads(self, store, first, second, saved):
        """The store's rows, read from its bytes, are what was answered."""
        rows = rows_of(store)
        secret, last, accounts = rows[1, ()]
        self.assertEqual((accounts, first), (1, serving.session_token(secret, 1, 1)))
        self.assertEqual(second, serving.session_token(secret, 1, 2))
        self.assertEqual(rows[2, (1,)], ("alice", 2, hashlib.sha256(NEXT.encode()).digest()))
        self.assertEqual((rows[3, (1, 1)], rows[3, (1, 2)]), ((110000, "6e"), (110000, "6f")))
        account, kind, created, updated, deleted, *strings = rows[4, (uuids.UUID(ITEM).bytes,)]
        self.assertEqual((account, kind, deleted, strings), (1, "Note", 1, ["", ""]))
        self.assertEqual((serving.stamp_text(created), updated), (saved["created_at"], last))
        self.assertEqual(len(rows), 5)


class Answers(unittest.TestCase):
    """Bytes in, bytes out."""

    TABLE = (
        (b"GET /x HTTP/1.1\r\nHost: a\r\n\r\n", answer(404, b"Not Found", b"no-route")),
        (b"GET /auth HTTP/1.1\r\nHost: a\r\n\r\n", answer(405, b"Method Not Allowed", b"method", b"Allow: POST")),
        (
            b"POST /auth/params HTTP/1.1\r\nContent-Length: 0\r\n\r\n",
            answer(405, b"Method Not Allowed", b"method", b"Allow: GET"),
        ),
        (
            b"POST /items/sync HTTP/1.1\r\nContent-Length: 8388609\r\n\r\n",
            answer(413, b"Content Too Large", b"body-long", b"Connection: close"),
        ),
        (
            b"POST /items/sync HTTP/1.1\r\nTransfer-Encoding: chunked\r\n\r\n",
            answer(501, b"Not Implemented", b"coding", b"Connection: close"),
        ),
        (
            b"POST /items/sync HTTP/1.1\r\n\r\n",
            answer(411, b"Length Required", b"length-required", b"Connection: close"),
        ),
        (b"GET /auth/params?em", answer(400, b"Bad Request", b"broken", b"Connection: close")),
        (b"\r\n", answer(400, b"Bad Request", b"broken", b"Connection: close")),
        (
            b"POST /items/sync HTTP/1.1\r\nContent-Length: 9\r\n\r\n{}",
            answer(400, b"Bad Request", b"broken", b"Connection: close"),
        ),
        (
            b"POST /auth/sign_in HTTP/1.1\r\nContent-Length: 2\r\n\r\n{]",
            answer(400, b"Bad Request", b"not-json"),
        ),
        (
            b"POST /items/sync HTTP/1.1\r\nContent-Length: 29\r\n\r\n" + b'{"api":"20190520","items":[]}',
            answer(401, b"Unauthorized", b"bad-auth", b"WWW-Authenticate: Bearer"),
        ),
        (
            b"POST /items/sync HTTP/1.1\r\nHost: a\r\nContent-Length: 41\r\n\r\n" + b'{"api":"20190520","items":[],"limit":501}',
            b"HTTP/1.1 400 Bad Request\r\nContent-Type: application/json\r\nContent-Length: 38\r\n\r\n"
            + b'{"error":{"number":501,"tag":"limit"}}',
        ),
        (b"", b""),
    )

    def test_each_request_whole_and_in_pieces(self):
        with serving.Store() as store, serving.Served(store) as server:
            for cut in (None, 1, 7):
                for given, wanted in self.TABLE:
                    with self.subTest(given=given, cut=cut):
                        self.assertEqual(raw(server.port, given, cut), wanted)

    def test_requests_behind_one_another(self):
        two = self.TABLE[0][0] + self.TABLE[1][0]
        with serving.Store() as store, serving.Served(store) as server:
            self.assertEqual(raw(server.port, two), self.TABLE[0][1] + self.TABLE[1][1])
            # Nothing is answered behind a check that closes.
            closing = self.TABLE[3]
            self.assertEqual(raw(server.port, closing[0] + two), closing[1])


class Counted(unittest.TestCase):
    """`--requests` counts answers written whole and connections without one."""

    def test_answers_and_empty_connections(self):
        with serving.Store() as store, serving.Served(store, 3) as server:
            raw(server.port, b"")
            raw(server.port, Answers.TABLE[0][0])
            self.assertIsNone(server.process.poll())
            raw(server.port, Answers.TABLE[3][0])
            self.assertEqual(server.ended(), (0, b""))

    def test_a_budget_that_ends_inside_a_connection(self):
        with serving.Store() as store, serving.Served(store, 2) as server:
            self.assertEqual(raw(server.port, Answers.TABLE[0][0] * 3), Answers.TABLE[0][1] * 2)
            self.assertEqual(server.ended(), (0, b""))

    def test_faulty_command_lines(self):
        for port, requests in (("65536", "1"), ("00", "1"), ("0", "0"), ("0", "1000001")):
            with serving.Store() as store:
                words = ["serve", "--store", store, "--port", port, "--requests", requests]
                self.assertEqual(program.run(words), (2, b"", b"sn: usage\n"))
                self.assertFalse(os.path.exists(store))


class Stores(unittest.TestCase):
    def serve(self, store):
        return program.run(["serve", "--store", store, "--port", "0", "--requests", "1"])

    def test_a_store_that_is_another_programs_file(self):
        for held, line in ((b"PK\3\4", b"sn: foreign 0\n"), (b"SNSYNC-JOURNALD1\0", b"sn: foreign 14\n"), (b"SNSYNC-JOURNALS1", b"sn: damaged 16\n")):
            with serving.Store() as store:
                with open(store, "wb") as file:
                    file.write(held)
                self.assertEqual(self.serve(store), (9, b"", line))
                with open(store, "rb") as file:
                    self.assertEqual(file.read(), held)

    def test_rows_that_are_no_servers(self):
        # An account, and no row of the store.
        key, value = (1).to_bytes(8, "big"), b"\0\0\0\5alice" + (1).to_bytes(8, "big") + bytes(32)
        change = b"\1\2" + len(key).to_bytes(4, "big") + key + len(value).to_bytes(4, "big") + value
        with serving.Store() as store:
            with open(store, "wb") as file:
                file.write(journal.header(b"S") + b"\1" + len(change).to_bytes(4, "big") + change + b"\0")
            self.assertEqual(self.serve(store), (9, b"", b"sn: rows 1\n"))

    def test_a_start_that_was_cut_off(self):
        for held in (b"", b"S", b"\0" + journal.MAGIC[1:]):
            with serving.Store() as store:
                with open(store, "wb") as file:
                    file.write(held)
                with serving.Served(store, 1) as server:
                    self.assertEqual(raw(server.port, Answers.TABLE[0][0]), Answers.TABLE[0][1])
                    self.assertEqual(server.ended(), (0, b""))
                self.assertEqual(rows_of(store)[1, ()][1:], (0, 0))

    def test_an_output_that_takes_nothing(self):
        words = ["serve", "--port", "0", "--requests", "1", "--store"]
        with serving.Store() as store, open("/dev/full", "wb") as full:
            done = subprocess.run([program.SN, *words, store], stdin=subprocess.DEVNULL, stdout=full, stderr=subprocess.PIPE)
            self.assertEqual((done.returncode, done.stderr), (7, b"sn: write fault\n"))

    def test_a_standard_stream_that_is_closed(self):
        """The store doesn't get the number of a closed stream, so that nothing is written into it that is none of its own."""
        for closed in (0, 1, 2):
            with serving.Store() as store:
                with serving.Served(store) as server:
                    self.assertEqual(serving.Client(server.port).register("alice", PW)[0], 200)
                with open(store, "rb") as file:
                    held = file.read()
                words = [program.SN, "serve", "--port", "0", "--requests", "1", "--store", store]
                full = os.open("/dev/full", os.O_WRONLY)
                try:
                    done = subprocess.run(words, stdin=full, stdout=full, stderr=full, preexec_fn=lambda: os.close(closed))
                finally:
                    os.close(full)
                self.assertEqual(done.returncode, 7, closed)
                with open(store, "rb") as file:
                    self.assertEqual(file.read(), held, closed)

    def test_a_folder_that_is_not_there(self):
        with serving.Store() as store:
            self.assertEqual(self.serve(os.path.join(store, "x", "y")), (4, b"", b"sn: disk fault\n"))

    def test_a_store_that_is_open_already(self):
        with serving.Store() as store, serving.Served(store) as server:
            client = serving.Client(server.port)
            self.assertEqual(client.register("alice", PW)[0], 200)
            self.assertEqual(self.serve(store), (4, b"", b"sn: disk fault\n"))
            self.assertEqual(client.sync([serving.item_of(ITEM, b"one")])[0], 200)
            server.kill()
            self.assertIn((4, (uuids.UUID(ITEM).bytes,)), rows_of(store))

    def test_a_port_that_is_taken(self):
        with serving.Store() as store, serving.Store() as other, serving.Served(store) as server:
            words = ["serve", "--store", other, "--port", str(server.port), "--requests", "1"]
            self.assertEqual(program.run(words), (5, b"", b"sn: link fault\n"))


class Silent(unittest.TestCase):
    """A peer that sends nothing more is given up after 60 seconds, and the next one is served."""

    def test_a_peer_that_says_nothing(self):
        with serving.Store() as store, serving.Served(store, requests=2) as server:
            with socket.create_connection(("127.0.0.1", server.port)) as peer:
                peer.sendall(b"GET /auth/params?email=alice HTTP/1.1\r\n")
                began = time.monotonic()
                status, _ = serving.Client(server.port, timeout=90).ask("GET", "/auth/params?email=alice")
                waited = time.monotonic() - began
            self.assertEqual(status, 404)
            self.assertTrue(55 <= waited <= 75, waited)
            self.assertEqual(server.ended(), (0, b""))


class Memory(unittest.TestCase):
    """Where memory is wanting for a request it is refused, nothing of it is kept, and the next one is served."""

    LIMIT = 16 << 20

    def test_an_item_that_is_too_much(self):
        other = "00000000-0000-4000-8000-000000000002"
        with serving.Store() as store:
            with serving.Served(store, memory=self.LIMIT) as server:
                client = serving.Client(server.port)
                self.assertEqual(client.register("alice", PW)[0], 200)
                self.assertEqual(client.sync([serving.item_of(ITEM, b"small")])[0], 200)
                before = rows_of(store)
                large = serving.item_of(other, b"x" * 500_000)
                for _ in range(3):
                    self.assertEqual(client.sync([large]), (503, {"error": {"tag": "memory"}}))
                self.assertEqual(rows_of(store), before)
                status, given = client.sync()
                self.assertEqual((status, [item["uuid"] for item in given["retrieved_items"]]), (200, [ITEM]))
            # The same item is taken where memory suffices.
            with serving.Served(store) as server:
                client = serving.Client(server.port)
                client.sign_in("alice", PW)
                status, given = client.sync([large])
                self.assertEqual((status, [item["uuid"] for item in given["saved_items"]]), (200, [other]))


class Killed(unittest.TestCase):
    """Stopped at any moment, it has every item that it acknowledged, and nothing half."""

    def load(self, port, acknowledged):
        """Sends new items, a few a request, and notes each that is acknowledged, until the server is gone."""
        client = serving.Client(port, keeps=True)
        try:
            client.sign_in("alice", PW)
            while True:
                names = [str(uuids.UUID(int=drawn.getrandbits(128), version=4)) for _ in range(drawn.choice((1, 3)))]
                items = [serving.item_of(name, drawn.randbytes(drawn.choice((10, 3000)))) for name in names]
                status, given = client.sync(items)
                assert status == 200
                saved = {saved["uuid"]: saved for saved in given["saved_items"]}
                for item in items:
                    acknowledged[item["uuid"]] = (item, saved[item["uuid"]]["updated_at"])
        except (OSError, serving.http.client.HTTPException, ValueError):
            pass

    def holds(self, store, acknowledged):
        rows = rows_of(store)
        for name, (item, stamp) in acknowledged.items():
            account, kind, created, updated, deleted, content, key = rows[4, (uuids.UUID(name).bytes,)]
            held = account, kind, deleted, content, key, serving.stamp_text(updated)
            self.assertEqual(held, (1, "Note", 0, item["content"], item["enc_item_key"], stamp))

    def test_killed_under_load(self):
        acknowledged = {}
        with serving.Store() as store:
            with serving.Served(store) as server:
                self.assertEqual(serving.Client(server.port).register("alice", PW)[0], 200)
            began, kills = time.monotonic(), 0
            while kills < KILLS and (kills < FEWEST_KILLS or time.monotonic() - began < KILLING_SECONDS):
                kills += 1
                with serving.Served(store) as server:
                    self.assertIsNotNone(server.port)
                    load = threading.Thread(target=self.load, args=(server.port, acknowledged))
                    load.start()
                    wanted, until = len(acknowledged) + drawn.choice((0, 1, 2, 4)), time.monotonic() + 1
                    while len(acknowledged) < wanted and time.monotonic() < until:
                        time.sleep(0.001)
                    time.sleep(drawn.uniform(0, 0.02))
                    server.kill()
                    load.join()
                self.holds(store, dict(list(acknowledged.items())[-20:]))
            self.holds(store, acknowledged)
            with serving.Served(store) as server:
                client = serving.Client(server.port)
                self.assertEqual(client.sign_in("alice", PW)[0], 200)
                self.assertEqual({name for name in self.pulled(client)} >= set(acknowledged), True)
        print("%d kills, %d items" % (kills, len(acknowledged)), end=" ... ", flush=True)
        self.assertGreater(len(acknowledged), kills // 4)

    def pulled(self, client):
        """The uuids of all items, page by page."""
        token = cursor = None
        while True:
            status, given = client.sync(sync_token=token, cursor_token=cursor)
            self.assertEqual(status, 200)
            yield from (item["uuid"] for item in given["retrieved_items"])
            token, cursor = given["sync_token"], given["cursor_token"]
            if cursor is None:
                return


def nginx_server():
    """The server block of the documents."""
    with open(os.path.join(program.TOP, "docs", "SERVER.md")) as file:
        return file.read().split("```nginx\n", 1)[1].split("```", 1)[0]


@unittest.skipUnless(shutil.which("nginx") and shutil.which("openssl"), "nginx or openssl isn't installed")
class BehindAProxy(unittest.TestCase):
    """The configuration of the documents, with other ports and a certificate of its own."""

    def configured(self, folder, port, upstream):
        names = os.path.join(folder, "notes.pem"), os.path.join(folder, "notes.key")
        made = ["openssl", "req", "-x509", "-newkey", "rsa:2048", "-nodes", "-subj", "/CN=localhost", "-days", "2"]
        subprocess.run([*made, "-out", names[0], "-keyout", names[1]], check=True, stderr=subprocess.DEVNULL)
        block = nginx_server().replace("443", "127.0.0.1:%d" % port).replace("127.0.0.1:8080", "127.0.0.1:%d" % upstream)
        block = block.replace("/etc/ssl/notes.pem", names[0]).replace("/etc/ssl/notes.key", names[1])
        places = "".join("%s_temp_path %s/%s;\n" % (name, folder, name) for name in ("client_body", "proxy", "fastcgi", "uwsgi", "scgi"))
        text = "daemon off;\nmaster_process off;\npid %s/pid;\nerror_log %s/log;\nevents {}\nhttp {\naccess_log off;\n%s%s}\n"
        path = os.path.join(folder, "nginx.conf")
        with open(path, "w") as file:
            file.write(text % (folder, folder, places, block))
        return path

    def free_port(self):
        with socket.create_server(("127.0.0.1", 0)) as listener:
            return listener.getsockname()[1]

    def test_a_sync_over_tls(self):
        with serving.Store() as store, serving.Served(store) as server:
            folder, port = os.path.dirname(store), self.free_port()
            process = subprocess.Popen(["nginx", "-p", folder, "-c", self.configured(folder, port, server.port)], stderr=subprocess.DEVNULL)
            try:
                self.syncs(port)
            finally:
                process.kill()
                process.wait()

    def syncs(self, port):
        import ssl

        context = ssl.create_default_context()
        context.check_hostname, context.verify_mode = False, ssl.CERT_NONE
        client = serving.Client(port, context=context)
        for _ in range(100):
            try:
                status = client.register("alice", PW)[0]
                break
            except OSError:
                time.sleep(0.1)
        self.assertEqual(status, 200)
        status, given = client.sync([serving.item_of(ITEM, b"one")])
        self.assertEqual((status, len(given["saved_items"])), (200, 1))
        status, given = client.sync()
        self.assertEqual([item["uuid"] for item in given["retrieved_items"]], [ITEM])


if __name__ == "__main__":
    unittest.main()

"""What `sn serve` answers to requests one after another, over loopback, and what its store holds then: by answers that were worked
out by hand from docs/SERVER.md, by the model of the rules (`rule.py`), and by the bytes of docs/FORMATS.md. The stores are written
here, so that secrets and tokens are known; where the last stamp is past the clock each new one is one more than the last.
"""

import contextlib
import http.client
import json
import os
import random
import resource
import struct
import subprocess
import time
import unittest

import drawn
import independent
import journal
import messages
import program
import random_requests
import rule
import serving
from test_serve import answer, raw

PATHS = {"register": "/auth", "params": "/auth/params", "sign_in": "/auth/sign_in", "change_pw": "/auth/change_pw", "sync": "/items/sync"}
# A stamp of the year 9892, past any clock.
BASE = 250_000_000_000_000_000
SECRET = bytes(32)
ALICE_FIRST, ALICE_LATER, BO_FIRST = (serving.session_token(SECRET, *which) for which in ((1, 1), (1, 2), (2, 1)))
A, B, LATER = (
    independent.params_part(identifier, 110000, nonce)
    for identifier, nonce in (("alice@example.org", "4c6f"), ("bo@example.org", "62"), ("alice@example.org", "4c70"))
)


def uuid_of(number):
    return "00000000-0000-4000-8000-0000000000%02d" % number


def string_of(number, part):
    return ":".join(["003", "0" * 64, uuid_of(number), "0" * 32, "AAAAAAAAAAAAAAAAAAAAAA==", part])


# ---- requests: the route, the token and the text


def register(identifier, nonce):
    members = {"email": identifier, "password": "07" * 32, "pw_cost": 110000, "pw_nonce": nonce, "version": "003"}
    return "register", "", json.dumps(members)


def params(query):
    return "params", "", "email=" + query


def sign_in(identifier, password):
    return "sign_in", "", json.dumps({"email": identifier, "password": password * 32})


def change(token, current, new, nonce):
    passwords = {"current_password": current * 32, "new_password": new * 32}
    return "change_pw", token, json.dumps({**passwords, "pw_cost": 110000, "pw_nonce": nonce, "version": "003"})


def sync(token, *items, **members):
    return "sync", token, json.dumps({"api": "20190520", "items": items, **members})


def note(number, part, known=None):
    """An item with strings under these parameters, or with none in form where the part is `x`; it says that it stands on this stamp."""
    string = part if part == "x" else string_of(number, part)
    stamp = None if known is None else rule.stamp_text(known)
    return {"uuid": uuid_of(number), "content_type": "Note", "content": string, "enc_item_key": string, "deleted": False, "updated_at": stamp}


def gone(number, known=None):
    return {**note(number, "x", known), "deleted": True}


def token_of(number):
    return rule.token_text(BASE + number if number else 0)


ALICE = register("alice@example.org", "4c6f")


# ---- answers, as a line

CONFLICTS = {"sync_conflict": "stored", "uuid_conflict": "foreign", "content_error": "unread"}


def short(stamp):
    """A stamp as a number from BASE on, but for 0, which stands for none, and the last one of all."""
    return "last" if stamp == rule.LAST_STAMP else str(stamp - BASE if stamp else 0)


def shown(what, item):
    """An item, with the last digits of its uuid and with its stamp."""
    given = item["updated_at"]
    return "%s #%d@%s " % (what, int(item["uuid"][-2:]), short(given and messages.stamp_of(given)))


def told(text):
    """What an answer says."""
    body = json.loads(text)
    if "error" in body:
        error = body["error"]
        return " ".join(str(value) for value in (error.pop("tag"), *error.values()))
    if "token" in body:
        return "token " + body["token"]
    if "identifier" in body:
        return "%s %d %s" % (body["identifier"], body["pw_cost"], body["pw_nonce"])
    line = "".join(shown("saved", item) for item in body["saved_items"])
    line += "".join(shown(CONFLICTS[each["type"]], each[messages.PLACES[each["type"]]]) for each in body["conflicts"])
    line += "".join(shown("retrieved", item) for item in body["retrieved_items"])
    token = body["sync_token"]
    assert body["cursor_token"] in (None, token)
    return line + ("cursor " if body["cursor_token"] else "") + short(rule.read_token(token))


class Rules(unittest.TestCase):
    """A server and the model of its rules, over one store."""

    def setUp(self):
        folder = serving.Store()
        self.store = folder.__enter__()
        self.addCleanup(folder.__exit__)

    def begin(self, last=BASE, secret=SECRET):
        self.model = rule.Server(secret, last)
        self.batches = [self.model.store_row()]
        serving.make_store(self.store, *self.batches)

    @contextlib.contextmanager
    def served(self):
        """A server over the store, and one connection to it."""
        with serving.Served(self.store) as server:
            self.connection = http.client.HTTPConnection("127.0.0.1", server.port, timeout=60)
            yield
            self.connection.close()

    def ask(self, route, token, text):
        """Status and text."""
        headers = {"Content-Type": "application/json", "Authorization": "Bearer " + token}
        if route == "params":
            self.connection.request("GET", PATHS[route] + "?" + text, headers=headers)
        else:
            self.connection.request("POST", PATHS[route], body=text.encode(), headers=headers)
        answer = self.connection.getresponse()
        return answer.status, answer.read().decode()

    def takes(self, request, wanted=None):
        """The server answers as the model does, and so that this is told. The change is kept for `holds`."""
        status, text, changes = self.model.handle(*request, 0)
        self.assertEqual(self.ask(*request), (status, text), request)
        if wanted is not None:
            self.assertEqual("%d %s" % (status, told(text)), wanted, request)
        self.batches += [changes] if changes else []
        return status, text

    def holds(self):
        """The batches of the store are the model's."""
        with open(self.store, "rb") as file:
            self.assertEqual(journal.payloads(file.read(), b"S"), self.batches)

    def in_turn(self, turns, last=BASE, secret=SECRET):
        """Alice's registration, and then these requests."""
        self.begin(last, secret)
        with self.served():
            for request, wanted in ((ALICE, "200 token " + ALICE_FIRST), *turns):
                self.takes(request, wanted)
            self.holds()

    def in_turn_of_two(self, turns):
        """Alice's registration and Bo's, and then these requests."""
        self.in_turn(((register("bo@example.org", "62"), "200 token " + BO_FIRST), *turns))


class InTurn(Rules):
    def test_tokens(self):
        """By an independent implementation of HMAC."""
        uuid = "00000000-0000-8000-8000-00000000000%d."
        self.assertEqual(ALICE_FIRST, uuid % 1 + "be883f77f40967be90508f28969d76611aa7008fa35f11eb523a0215d46bf63f")
        self.assertEqual(ALICE_LATER, uuid % 1 + "2869a85254a8c540318d57d9d6f5c0636fe6f9ae36199aaf30503ab7538b4423")
        self.assertEqual(BO_FIRST, uuid % 2 + "095777447b0381ca4c008fcd6c993773ff42b7df36c880233a2b54a90ffca409")

    def test_a_server_without_accounts(self):
        self.begin()
        with self.served():
            self.takes(params("alice%40example.org"), "404 unknown")
            self.takes(sign_in("alice@example.org", "07"), "404 unknown")
            self.takes(sync(ALICE_FIRST), "401 bad-auth")
            self.takes(ALICE, "200 token " + ALICE_FIRST)
            self.holds()

    def test_syncs_of_two_accounts(self):
        one = token_of(1)
        self.in_turn_of_two(
            (
                (sync(ALICE_FIRST), "200 0"),
                (sync(ALICE_FIRST, note(1, A)), "200 saved #1@1 1"),
                (sync(ALICE_FIRST, note(1, A)), "200 saved #1@1 retrieved #1@1 1"),
                (sync(ALICE_FIRST, note(2, A), sync_token=one), "200 saved #2@2 2"),
                (sync(BO_FIRST, note(1, B)), "200 foreign #1@0 0"),
                (sync(ALICE_FIRST, note(1, "x"), sync_token=token_of(2)), "200 stored #1@1 2"),
                (sync(ALICE_FIRST, note(3, B), sync_token=token_of(2)), "200 unread #3@0 2"),
                (sync(ALICE_FIRST, note(3, "x"), sync_token=token_of(2)), "200 unread #3@0 2"),
                (sync(ALICE_FIRST, gone(2, BASE + 2), sync_token=token_of(2)), "200 saved #2@3 3"),
                (sync(ALICE_FIRST, gone(2)), "200 saved #2@3 retrieved #1@1 3"),
                (sync(ALICE_FIRST, limit=1, sync_token="Mjow"), "200 retrieved #1@1 cursor 1"),
                (sync(ALICE_FIRST, sync_token="Mjow", cursor_token=one), "200 retrieved #2@3 3"),
                (sync(ALICE_FIRST, sync_token="Mjo=", cursor_token="Mzox"), "400 bad-token sync_token"),
                (sync(ALICE_FIRST, sync_token="Mjox", cursor_token="Mzox"), "400 bad-token cursor_token"),
                (sync(""), "401 bad-auth"),
            )
        )

    def test_what_is_too_much(self):
        long = {**note(1, A), "content": "x", "enc_item_key": "x" * 1_048_577}
        longer = {**note(2, A), "content": "x" * 1_048_578}
        self.in_turn_of_two(
            (
                (sync(ALICE_FIRST, *[gone(1)] * 501), "413 wide 501"),
                (sync(ALICE_FIRST, long), "413 long 1048577 " + uuid_of(1)),
                (sync(ALICE_FIRST, long, longer), "413 long 1048577 " + uuid_of(1)),
                (sync(ALICE_FIRST, longer, long), "413 long 1048578 " + uuid_of(2)),
                (sync(ALICE_FIRST, *[gone(1)] * 500), "200 " + "saved #1@1 " * 500 + "1"),
            )
        )

    def test_an_account(self):
        """Of one identifier there is one, and only its password is let in."""
        alice = "alice@example.org"
        self.in_turn_of_two(
            (
                (register(alice, "4c70"), "409 taken"),
                (register("bo@example.org", "63"), "409 taken"),
                (sign_in(alice, "07"), "200 token " + ALICE_FIRST),
                (sign_in(alice, "08"), "401 bad-auth"),
                (params("alice%40example.org"), "200 alice@example.org 110000 4c6f"),
                (params("bo%40example.org"), "200 bo@example.org 110000 62"),
                (params("cy%40example.org"), "404 unknown"),
                (sign_in("bo@example.org", "07"), "200 token " + BO_FIRST),
                (sign_in("bo@example.org", "08"), "401 bad-auth"),
                (sign_in("cy@example.org", "07"), "404 unknown"),
            )
        )

    def test_changes_of_one_password(self):
        """Each from the same state."""
        for token, current, nonce, wanted in (
            (ALICE_FIRST, "07", "4c70", "200 token " + ALICE_LATER),
            (ALICE_FIRST, "08", "4c70", "401 bad-auth"),
            (ALICE_LATER, "07", "4c70", "401 bad-auth"),
            ("", "07", "4c70", "401 bad-auth"),
            (ALICE_FIRST, "07", "4c6f", "409 nonce-used"),
        ):
            with self.subTest(wanted=wanted, token=token):
                self.in_turn_of_two([(change(token, current, "09", nonce), wanted)])

    WAITS = "409 rekey-running 00000000-0000-4000-8000-00000000000"
    ALICE_THIRD = serving.session_token(SECRET, 1, 3)

    def test_changes_one_after_another(self):
        """A change runs until each item carries its parameters. Syncs are served meanwhile."""
        self.in_turn_of_two(
            (
                (sync(ALICE_FIRST, note(1, A)), "200 saved #1@1 1"),
                (change(ALICE_FIRST, "07", "09", "4c6f"), "409 nonce-used"),
                (change(ALICE_FIRST, "07", "09", "4c70"), "200 token " + ALICE_LATER),
                (change(ALICE_FIRST, "07", "09", "4c71"), "401 bad-auth"),
                (change(ALICE_LATER, "07", "09", "4c71"), "401 bad-auth"),
                (change(ALICE_LATER, "09", "0a", "4c71"), self.WAITS + "1"),
                (sync(ALICE_LATER), "200 retrieved #1@1 1"),
                (sync(ALICE_LATER, note(1, "x", BASE + 1)), "200 unread #1@1 retrieved #1@1 1"),
                (sync(ALICE_LATER, note(1, LATER, BASE + 1)), "200 saved #1@2 retrieved #1@1 2"),
                (change(ALICE_LATER, "09", "0a", "4c71"), "200 token " + self.ALICE_THIRD),
            )
        )

    def test_answers_while_a_change_runs(self):
        """The next change is answered with the least uuid of those that it waits for, however often it is sent, and no other
        request is kept waiting."""
        first, again = token_of(1), change(ALICE_LATER, "09", "0a", "4c71")
        self.in_turn_of_two(
            (
                (sync(ALICE_FIRST, note(2, A)), "200 saved #2@1 1"),
                (sync(ALICE_FIRST, note(1, A), sync_token=first), "200 saved #1@2 2"),
                (change(ALICE_FIRST, "07", "09", "4c70"), "200 token " + ALICE_LATER),
                (again, self.WAITS + "1"),
                (params("alice%40example.org"), "200 alice@example.org 110000 4c70"),
                (sign_in("alice@example.org", "09"), "200 token " + ALICE_LATER),
                (change(BO_FIRST, "07", "09", "63"), "200 token " + serving.session_token(SECRET, 2, 2)),
                (again, self.WAITS + "1"),
                (sync(ALICE_LATER, note(1, LATER, BASE + 2), sync_token=token_of(2)), "200 saved #1@3 3"),
                (again, self.WAITS + "2"),
                (sync(ALICE_LATER, note(2, LATER, BASE + 1), sync_token=token_of(3)), "200 saved #2@4 4"),
                (again, "200 token " + self.ALICE_THIRD),
            )
        )


class Stamps(Rules):
    def test_the_clock(self):
        """The stamp is the clock's where that is past the last one."""
        self.begin(last=5)
        with self.served():
            self.takes(ALICE, "200 token " + ALICE_FIRST)
            before = int(time.time() * 1e6)
            status, text = self.ask(*sync(ALICE_FIRST, note(1, A), note(2, A)))
            after = int(time.time() * 1e6)
        saved = [item["updated_at"] for item in json.loads(text)["saved_items"]]
        stamp = rule.read_token(json.loads(text)["sync_token"])
        self.assertEqual((status, saved), (200, [rule.stamp_text(stamp - 1), rule.stamp_text(stamp)]))
        self.assertTrue(before <= stamp - 1 <= after, (before, stamp, after))

    def test_they_are_used_up(self):
        """A request with an item too many is refused as a whole."""
        last = rule.LAST_STAMP
        self.assertEqual(rule.token_text(last), "MjoyNTM0MDIzMDA3OTk5OTk5OTk=")
        self.in_turn(
            (
                (sync(ALICE_FIRST, note(1, A), note(2, A)), "409 stamps-used %d" % (last - 1)),
                (sync(ALICE_FIRST), "200 0"),
                (sync(ALICE_FIRST, note(6, A)), "200 saved #6@last last"),
                (sync(ALICE_FIRST, note(7, A)), "409 stamps-used %d" % last),
                (sync(ALICE_FIRST, note(6, A)), "200 saved #6@last retrieved #6@last last"),
            ),
            last - 1,
        )


class Numbers(unittest.TestCase):
    """Accounts and generations of keys up to their bounds."""

    MOST = 1_000_000

    def account(self, number, identifier, generation=1):
        return rule.put(2, struct.pack(">Q", number), rule.counted(identifier) + struct.pack(">Q", generation) + independent.check_value(b"\7" * 32))

    def generation(self, number, generation, nonce=b"n"):
        return rule.put(3, struct.pack(">QQ", number, generation), struct.pack(">I", 110000) + rule.counted(nonce))

    def made(self, store, accounts, rows):
        serving.make_store(store, b"".join(rows), rule.put(1, b"", SECRET + struct.pack(">QQ", 0, accounts)))

    def test_accounts(self):
        """An account's uuid has its number in hex."""
        for number, uuid in ((1, "000000000001"), (255, "0000000000ff"), (self.MOST, "0000000f4240")):
            with serving.Store() as store:
                rows = (self.account(n, b"i%d" % n) + self.generation(n, 1) for n in range(1, number))
                self.made(store, number - 1, rows)
                with serving.Served(store) as server:
                    client = serving.Client(server.port, timeout=300)
                    status, given = client.register("alice", "07" * 32)
                    self.assertEqual((status, given["user"]["uuid"]), (200, "00000000-0000-8000-8000-" + uuid))
                    self.assertEqual(given["token"], serving.session_token(SECRET, number, 1))
                    if number == self.MOST:
                        self.assertEqual(client.register("bob", "07" * 32), (409, {"error": {"number": self.MOST, "tag": "full"}}))
                        self.assertEqual(client.register("alice", "07" * 32), (409, {"error": {"tag": "taken"}}))

    def test_generations(self):
        with serving.Store() as store:
            rows = (self.generation(1, n, b"n%d" % n) for n in range(1, self.MOST))
            self.made(store, 1, (self.account(1, b"alice", self.MOST - 1), *rows))
            with serving.Served(store) as server:
                client = serving.Client(server.port, timeout=300)
                client.token = serving.session_token(SECRET, 1, self.MOST - 1)
                self.assertEqual(client.change("07" * 32, "08" * 32, "n1"), (409, {"error": {"tag": "nonce-used"}}))
                self.assertEqual(client.change("07" * 32, "08" * 32, "n")[0], 200)
                self.assertEqual(client.token, serving.session_token(SECRET, 1, self.MOST))
                self.assertEqual(client.change("08" * 32, "09" * 32, "m"), (409, {"error": {"number": self.MOST, "tag": "changes-used"}}))


class Drawn(Rules):
    """Random requests, each answered as by the model, whose rows are the store's. SN_SEED makes others."""

    HISTORIES, LENGTH = 30, 60
    TAGS = {200, "taken", "unknown", "bad-auth", "bad-token", "rekey-running", "nonce-used", "stamps-used"}

    def test_beside_the_model(self):
        draw, tags = random.Random(int(os.environ.get("SN_SEED", "20190520"))), set()
        for history in range(self.HISTORIES):
            self.begin(draw.choice([BASE, rule.LAST_STAMP - 10]), draw.randbytes(32))
            client = random_requests.Client(draw, self.model)
            with self.subTest(history=history), self.served():
                for _ in range(self.LENGTH):
                    status, text = self.takes(client.next()[:3])
                    client.learn(status, text)
                    tags.add(json.loads(text).get("error", {}).get("tag") or status)
                self.holds()
        self.assertLessEqual(self.TAGS, tags)


class Bytes(unittest.TestCase):
    """What comes over a connection, byte for byte."""

    # The token is by an independent implementation of HMAC, under this secret.
    SECRET = drawn.chacha20(bytes([7]) * 32)[:32]
    TOKEN = b"00000000-0000-8000-8000-000000000001.a69362546717e7b408d55dbcd09aa07460e29be2daa186b16f0a356c21bd9a6e"
    REGISTER = b'POST /auth HTTP/1.1\r\nContent-Length: 139\r\n\r\n{"email":"alice","password":"%s","pw_cost":1,"pw_nonce":"6e","version":"003"}' % (b"0" * 64)
    PARAMS = b"GET /auth/params?email=alice HTTP/1.1\r\n\r\n"
    GOOD = b"HTTP/1.1 200 OK\r\nContent-Type: application/json\r\nContent-Length: %d\r\n\r\n"
    GIVEN = GOOD % 66 + b'{"identifier":"alice","pw_cost":1,"pw_nonce":"6e","version":"003"}'
    BEGUN = GOOD % 184 + b'{"token":"%s","user":{"email":"alice","uuid":"00000000-0000-8000-8000-000000000001"}}' % TOKEN

    def begun(self, store):
        serving.make_store(store, rule.Server(self.SECRET).store_row())

    def test_an_account(self):
        """It begins, and its parameters are answered behind that; what is more than the budget isn't read."""
        given = self.REGISTER + self.PARAMS + self.PARAMS
        for budget, answers in ((2, self.BEGUN + self.GIVEN), (3, self.BEGUN + 2 * self.GIVEN)):
            with serving.Store() as store:
                self.begun(store)
                with serving.Served(store, budget) as server:
                    self.assertEqual(raw(server.port, given), answers)
                    self.assertEqual(server.ended(), (0, b""))
                with serving.Served(store, budget) as server:
                    self.assertEqual(raw(server.port, given[len(self.REGISTER) :]), 2 * self.GIVEN)

    def test_answers_in_one_connection_that_ends(self):
        with serving.Store() as store:
            self.begun(store)
            with serving.Served(store, 4) as server:
                self.assertEqual(raw(server.port, self.REGISTER + self.PARAMS * 2), self.BEGUN + self.GIVEN * 2)
                self.assertIsNone(server.process.poll())
                self.assertEqual(raw(server.port, self.PARAMS), self.GIVEN)
                self.assertEqual(server.ended(), (0, b""))

    TABLE = (
        (b"GET /auth HTTP/1.1\r\n\r\n", answer(405, b"Method Not Allowed", b"method", b"Allow: POST")),
        (b"POST /auth HTTP/1.1\r\nContent-Length: 2\r\n\r\n[]", answer(400, b"Bad Request", b"not-json")),
        (PARAMS, answer(404, b"Not Found", b"unknown")),
        (
            b"GET /auth/params HTTP/1.1\r\nConnection: close\r\n\r\n",
            b"HTTP/1.1 400 Bad Request\r\nContent-Type: application/json\r\nContent-Length: 41\r\nConnection: close\r\n\r\n"
            + b'{"error":{"name":"email","tag":"member"}}',
        ),
        (b"POST /auth HTTP/1.1\r\n\r\n", answer(411, b"Length Required", b"length-required", b"Connection: close")),
        (b"POST /auth HTTP/1.1\r\nContent-Length: 8388609\r\n\r\n", answer(413, b"Content Too Large", b"body-long", b"Connection: close")),
        (b"POST /auth HTTP/1.1\r\nTransfer-Encoding: chunked\r\n\r\n", answer(501, b"Not Implemented", b"coding", b"Connection: close")),
        (b"GET", answer(400, b"Bad Request", b"broken", b"Connection: close")),
    )

    def test_a_server_without_accounts(self):
        with serving.Store() as store, serving.Served(store) as server:
            for given, wanted in self.TABLE:
                with self.subTest(given=given):
                    self.assertEqual(raw(server.port, given), wanted)


class Port(unittest.TestCase):
    def test_no_connection_can_be_taken(self):
        """Of as many open files as it may have, the one that a connection would be is too many."""
        with serving.Store() as store:
            words = ["serve", "--store", store, "--port", "0", "--requests", "1"]
            for files in range(4, 40):
                limit = lambda: resource.setrlimit(resource.RLIMIT_NOFILE, (files, files))
                done = subprocess.run([program.SN, *words], stdin=subprocess.DEVNULL, capture_output=True, preexec_fn=limit, timeout=60)
                self.assertNotEqual(done.returncode, 0, files)
                if done.stdout:
                    break
            self.assertRegex(done.stdout, rb"^listening [0-9]+\n$")
            self.assertEqual((done.returncode, done.stderr), (5, b"sn: link fault\n"))


if __name__ == "__main__":
    unittest.main()

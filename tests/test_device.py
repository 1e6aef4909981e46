"""The device's commands as a user runs them: two devices and a server over loopback, every status and line that can be
had from outside, and what the stores hold, read and opened by an independent implementation."""

import base64
import fcntl
import functools
import json
import os
import socket
import stat
import subprocess
import unittest

import devices
import independent
import program
import scripted
import serving
from devices import DELETED, Device

PASSWORD = "correct horse battery staple"
UUID = "00000000-0000-4000-8000-000000000001"
NEEDS_SERVER = ("register", "signin", "sync", "passwd")
READS = ("register", "signin", "passwd", "put", "edit")
NAMES_ACCOUNT = ("register", "signin")


def note(title, text):
    """The content of a note."""
    return json.dumps({"references": [], "text": text, "title": title}, separators=(",", ":"), ensure_ascii=False)


@functools.lru_cache(maxsize=None)
def registered():
    """The bytes of a store with an account."""
    said = scripted.answer(200, scripted.account_body())
    with devices.folder() as place, scripted.Scripted(lambda asked: said) as server:
        device = Device(os.path.join(place, "device"), server.port)
        device.register("alice", PASSWORD)
        return held(device)


def held(device):
    with open(device.store, "rb") as file:
        return file.read()


def spellings(data):
    """The data as it is, in hex, and as it shows in base64, wherever it begins."""
    yield data
    yield data.hex().encode()
    for skipped in range(3):
        yield base64.b64encode(bytes(skipped) + data)[4 if skipped else 0 : -4]


def closed_port():
    """A port at which nobody listens."""
    with socket.create_server(("127.0.0.1", 0)) as listener:
        return listener.getsockname()[1]


class Case(unittest.TestCase):
    def setUp(self):
        place = devices.folder()
        self.place = place.__enter__()
        self.addCleanup(place.__exit__, None, None, None)

    def path(self, name):
        return os.path.join(self.place, name)

    def device(self, port=1, name="device", holds=None):
        """A device over a store with these bytes, and else with an account."""
        device = Device(self.path(name), port)
        with open(device.store, "wb") as file:
            file.write(registered() if holds is None else holds)
        return device

    def refused(self, found, status, line):
        self.assertEqual(found, (status, b"", b"sn: %s\n" % line.encode()))

    def agree(self, port, store, *those):
        """Once at rest, the devices tell the same, and the stores hold what they tell."""
        devices.until_quiet(*those)
        first = those[0].contents()
        for device in those:
            self.assertEqual(sorted(device.list()), sorted(those[0].list()))
            self.assertEqual(device.contents(), first)
            items = device.items()
            self.assertEqual({uuid: (row.now, row.posted) for uuid, row in items.items()}, dict.fromkeys(first, (None, None)))
            self.assertEqual({uuid: row.base for uuid, row in items.items()}, first)
        if store is not None:
            last = devices.versions(store, "alice", PASSWORD)
            self.assertEqual({uuid: version.content for uuid, version in last.items() if version.content is not None}, first)
            for device in those:
                stamps = {uuid: row.stamp for uuid, row in device.items().items()}
                self.assertEqual(stamps, {uuid: version.stamp for uuid, version in last.items() if version.content is not None})
        return first


class TwoDevices(Case):
    def both(self, port):
        """Two devices of one account, the first one's notes on both."""
        a, b = Device(self.path("a"), port), Device(self.path("b"), port)
        a.register("alice", PASSWORD)
        titled = a.put("milk, bread\n", title="Shopping list")
        plain = a.put('{"t":"a"}')
        length = len(note("Shopping list", "milk, bread\n"))
        self.assertEqual(a.list(), ['%s draft %d "Note"' % (titled, length), '%s draft 9 "Note"' % plain])
        a.sync()
        b.sign_in("alice", PASSWORD)
        self.assertEqual(b.list(), [])
        b.sync()
        lines = ['%s clean %d "Note"' % (titled, length), '%s clean 9 "Note"' % plain]
        self.assertEqual((a.list(), b.list()), (lines, lines))
        self.assertEqual(b.contents(), {titled: note("Shopping list", "milk, bread\n"), plain: '{"t":"a"}'})
        return a, b, titled, plain

    def story(self, port, store=None):
        a, b, titled, plain = self.both(port)
        # Both edit one note: both texts are kept.
        a.edit(plain, '{"t":"b"}')
        b.edit(plain, '{"t":"c"}')
        a.sync()
        b.sync()
        found = self.agree(port, store, a, b)
        copy = '{"t":"c","conflict_of":"%s"}' % plain
        self.assertEqual((len(found), found[plain]), (3, '{"t":"b"}'))
        self.assertIn(copy, found.values())
        # Both edit it alike: there is nothing to keep twice.
        a.edit(plain, '{"t":"d"}')
        b.edit(plain, '{"t":"d"}')
        found = self.agree(port, store, b, a)
        self.assertEqual((len(found), found[plain]), (3, '{"t":"d"}'))
        # A deletion gives way to an edit.
        a.edit(plain, '{"t":"e"}')
        b.delete(plain)
        a.sync()
        self.assertIn('%s deleted 0 "Note"' % plain, b.list())
        found = self.agree(port, store, b, a)
        self.assertEqual((len(found), found[plain]), (3, '{"t":"e"}'))
        # An edit outlives a deletion, as a copy.
        b.delete(plain)
        a.edit(plain, '{"t":"f"}')
        b.sync()
        found = self.agree(port, store, a, b)
        self.assertNotIn(plain, found)
        self.assertIn('{"t":"f","conflict_of":"%s"}' % plain, found.values())
        # What both delete is gone.
        a.delete(titled)
        b.delete(titled)
        found = self.agree(port, store, a, b)
        self.assertNotIn(titled, found)
        self.assertEqual(len(found), 2)
        # What is deleted before it was ever sent goes at once.
        gone = b.put("{}")
        b.delete(gone)
        self.assertEqual(len(b.list()), 2)
        self.assertEqual(self.agree(port, store, b, a), found)

    def test_over_the_programs_server(self):
        with serving.Served(self.path("server")) as server:
            self.story(server.port, self.path("server"))

    def test_over_the_model_of_the_rules(self):
        with scripted.Rules() as server:
            self.story(server.port)

    def test_nothing_can_be_read_where_it_is_kept(self):
        words = [each.encode() for each in ("Shopping list", "milk, bread", '{"t":"a"}', PASSWORD)]
        with scripted.Rules() as rules:
            self.both(rules.port)
            sent = b"".join(request.data for request in rules.asked)
        *_, master, authentication = Device(self.path("a"), 1).rows()[18, (0,)]
        self.not_in([*words, master, authentication], sent)
        self.not_in(words, held(Device(self.path("a"), 1)) + held(Device(self.path("b"), 1)))
        os.remove(self.path("a"))
        os.remove(self.path("b"))
        with serving.Served(self.path("server")) as server:
            a, *_ = self.both(server.port)
        with open(self.path("server"), "rb") as file:
            self.not_in([*words, *a.rows()[18, (0,)][2:]], file.read())

    def not_in(self, secrets, data):
        for secret in secrets:
            for spelled in spellings(secret):
                self.assertGreater(len(spelled), 7)
                self.assertFalse(spelled in data, spelled)

    def test_who_may_read_a_store(self):
        with scripted.Rules() as server:
            self.both(server.port)
        self.assertEqual(stat.S_IMODE(os.stat(self.path("a")).st_mode), 0o600)

    def test_the_keys_of_the_password(self):
        """The password is the first line, as it stands; what follows doesn't count."""
        for given, password, cost in ((b"p1\nmore\n", b"p1", 110000), (b"p1\r\n", b"p1\r", 110000), ("\u00e9".encode(), "\u00e9".encode(), 110001)):
            with scripted.Rules() as server:
                device = Device(self.path("keys-%d" % len(given)), server.port)
                options = ["--cost", str(cost)] if cost != 110000 else []
                device.ok("register", "--identifier", "alice", *options, given=given)
                found_cost, nonce, *found = device.rows()[18, (0,)]
                self.assertEqual((found_cost, len(nonce)), (cost, 64))
                self.assertEqual(tuple(found), independent.keys(password, b"alice", cost, nonce.encode()))
                self.assertEqual(server.rules.accounts[0]["check"], independent.check_value(found[0]))

    def test_an_independent_client(self):
        """One in Python signs in with the same password, reads the device's notes and writes some for it."""
        with serving.Served(self.path("server")) as server:
            a = Device(self.path("a"), server.port)
            a.register("alice", PASSWORD)
            wanted = {a.put("text", title="t\u00eftle"): note("t\u00eftle", "text")}
            a.sync()
            client = serving.Client(server.port)
            _, params = client.ask("GET", "/auth/params?email=alice")
            cost, nonce = params["pw_cost"], params["pw_nonce"]
            pw, *keys = independent.keys(PASSWORD.encode(), b"alice", cost, nonce.encode())
            self.assertEqual(client.sign_in("alice", pw.hex())[0], 200)
            _, given = client.sync()
            found = {item["uuid"]: devices.content_of(item["content"], item["enc_item_key"], item["uuid"], b"".join(keys)) for item in given["retrieved_items"]}
            self.assertEqual(found, wanted)
            # More than a page of items, and one of another type.
            items = [self.sealed(n, b"".join(keys), cost, nonce) for n in range(200)]
            for item in items:
                wanted[item["uuid"]] = '{"n":%d}' % int(item["uuid"][-12:], 16)
            self.assertEqual(len(client.sync(items)[1]["saved_items"]), 200)
            a.sync()
            self.assertEqual(len(a.list()), 201)
            self.assertEqual({uuid: row.base for uuid, row in a.items().items()}, wanted)
            self.assertIn('%s clean 7 "Tag \\"x\\""' % items[7]["uuid"], a.list())
            a.edit(items[7]["uuid"], '{"title":"x"}')
            self.assertIn('%s draft 13 "Tag \\"x\\""' % items[7]["uuid"], a.list())

    def sealed(self, n, keys, cost, nonce):
        uuid = "00000000-0000-4000-9000-%012x" % n
        key = bytes([n]) * 64
        content = independent.seal(b'{"n":%d}' % n, uuid, key, "alice", cost, nonce, bytes([n]) * 16)
        enc = independent.seal(key.hex().encode(), uuid, keys, "alice", cost, nonce, bytes([255 - n]) * 16)
        return {"uuid": uuid, "content_type": 'Tag "x"' if n == 7 else "Note", "content": content, "enc_item_key": enc, "updated_at": None}

    def test_a_uuid_of_another_account(self):
        with scripted.Rules() as server:
            a, _, _, _ = self.both(server.port)
            bob = serving.Client(server.port)
            bob.register("bob", "11" * 32)
            uuid = a.put('{"mine":1}')
            bob.sync([serving.item_of(uuid, b"bob", identifier="bob")])
            a.sync()
            contents = a.contents()
            self.assertNotIn(uuid, contents)
            self.assertEqual(list(contents.values()).count('{"mine":1}'), 1)
            self.assertEqual({line.split()[1] for line in a.list()}, {"clean"})


class Usage(Case):
    OPTIONS = {
        "register": {"store": "x", "server": "127.0.0.1:1", "identifier": "alice"},
        "signin": {"store": "x", "server": "127.0.0.1:1", "identifier": "alice"},
        "put": {"store": "x"},
        "edit": {"store": "x", "uuid": UUID},
        "del": {"store": "x", "uuid": UUID},
        "list": {"store": "x"},
        "sync": {"store": "x", "server": "127.0.0.1:1"},
        "passwd": {"store": "x", "server": "127.0.0.1:1"},
    }
    BAD = {
        "server": ["", "a", "a:", ":1", "a:0", "a:65536", "a:01", "a:+1", "a:-1", "a: 1", "a_b:1", "a b:1", "\u00e9:1", "a" * 254 + ":1", "[::1]:1", "a:1:2", "http://a:1"],
        "identifier": ["", "a" * 255, "\u00e9" * 128],
        "uuid": ["", UUID[:-1], UUID + "0", UUID.replace("-", ""), UUID[:-1] + "A", "{%s}" % UUID],
    }

    def words(self, command, options):
        words = [command]
        for name, value in options.items():
            words.append("--%s=%s" % (name, self.path(value) if name == "store" else value))
        return words

    def faulty(self, words):
        with self.subTest(words=words):
            self.assertEqual(program.run(words, b"x"), (2, b"", b"sn: usage\n"))

    def test_an_option_that_is_missing_or_twice_or_unknown(self):
        for command, options in self.OPTIONS.items():
            for name in options:
                self.faulty(self.words(command, {other: value for other, value in options.items() if other != name}))
                self.faulty(self.words(command, options) + ["--%s=%s" % (name, options[name])])
            # No password is ever a word.
            for more in (["x"], ["--password", "x"], ["--password=x"], ["--nonce=x"], ["--store"], ["--frob"]):
                self.faulty(self.words(command, options) + more)
            for name in sorted({"title", "uuid", "cost", "identifier", "server"} - set(options)):
                if (command, name) not in (("put", "title"), ("list", "uuid"), ("register", "cost"), ("passwd", "cost")):
                    value = {"uuid": UUID, "cost": "110000", "server": "127.0.0.1:1"}.get(name, "x")
                    self.faulty(self.words(command, options) + ["--%s=%s" % (name, value)])
        self.assertEqual(os.listdir(self.place), [])

    def test_values_out_of_their_forms(self):
        for command, options in self.OPTIONS.items():
            for name in options:
                for value in self.BAD.get(name, ()):
                    self.faulty(self.words(command, {**options, name: value}))
        for value in self.BAD["uuid"]:
            self.faulty(self.words("list", {**self.OPTIONS["list"], "uuid": value}))
        for cost in ("", "0", "109999", "10000001", "0110000", "+110000", "-1", "110000.0", "1e6", "4294967296"):
            for command in ("register", "passwd"):
                self.faulty(self.words(command, {**self.OPTIONS[command], "cost": cost}))
        self.assertEqual(os.listdir(self.place), [])

    def test_values_at_their_bounds(self):
        """They are taken, and the store is looked at."""
        for command in NEEDS_SERVER:
            for server in ("a:1", "0.A-z:65535", "a" * 253 + ":1"):
                for identifier in ("a", "\u00e9" * 127):
                    options = {**self.OPTIONS[command], "server": server, "store": "no/folder"}
                    if command in NAMES_ACCOUNT:
                        options["identifier"] = identifier
                    self.refused(program.run(self.words(command, options), b"x\n"), 4, "disk fault")
        for cost in ("110000", "10000000"):
            for command in ("register", "passwd"):
                options = {**self.OPTIONS[command], "cost": cost, "store": "no/folder"}
                self.refused(program.run(self.words(command, options), b"x\n"), 4, "disk fault")


class Inputs(Case):
    def test_refusals_of_the_input_come_before_the_store(self):
        for command in READS:
            words = [command, "--store", self.path("x")]
            words += ["--server", "a:1"] if command in NEEDS_SERVER else []
            words += ["--identifier", "alice"] if command in NAMES_ACCOUNT else []
            words += ["--uuid", UUID] if command == "edit" else []
            self.refused(program.run(words, b"a" * 16777217), 3, "cli.1 InputLong")
            self.refused(program.run(words, b"{}\n\xff"), 3, "cli.2 InputUtf8 3")
            if command in NEEDS_SERVER:
                for given, length in ((b"", 0), (b"\n", 0), (b"\np", 0), (b"p" * 1025, 1025), (b"p" * 1026 + b"\np", 1026)):
                    self.refused(program.run(words, given), 3, "cli.3 PasswordLine %d" % length)
        self.assertEqual(os.listdir(self.place), [])

    def test_the_longest_password(self):
        device = self.device(closed_port(), holds=b"")
        self.refused(device.run("signin", "--identifier", "alice", given=b"p" * 1024 + b"\n" + b"q" * 2000), 5, "link fault")

    def test_an_input_that_cannot_be_read(self):
        device = self.device()
        for command in READS:
            options = {"edit": ["--uuid", UUID], "put": [], "passwd": []}.get(command, ["--identifier", "alice"])
            directory = os.open("/", os.O_RDONLY)
            try:
                done = subprocess.run([program.SN, *device.words(command, *options)], stdin=directory, capture_output=True)
            finally:
                os.close(directory)
            self.refused((done.returncode, done.stdout, done.stderr), 6, "read fault")
        self.assertEqual(held(device), registered())

    def test_commands_that_read_nothing(self):
        device = self.device(closed_port())
        uuid = device.put("{}")
        for command, options, wanted in (("list", [], 0), ("sync", [], 5), ("del", ["--uuid", uuid], 0)):
            words = [program.SN, *device.words(command, *options)]
            done = subprocess.run(words, stdin=subprocess.DEVNULL, capture_output=True, preexec_fn=lambda: os.close(0))
            self.assertEqual(done.returncode, wanted, words)


class Refused(Case):
    """Each refusal of a device that can be brought about from outside; what is kept stays as it was."""

    def stays(self, device, found, line, status=3):
        before = device.before
        self.refused(found, status, line)
        self.assertEqual(held(device), before)

    def ready(self, *arguments, **named):
        device = self.device(*arguments, **named)
        device.before = held(device)
        return device

    def test_no_account(self):
        for command in ("put", "edit", "del", "list", "content", "sync", "passwd"):
            device = Device(self.path(command), closed_port())
            options = ["--uuid", UUID] if command in ("edit", "del", "content") else []
            found = device.run("list" if command == "content" else command, *options, given=b"[]")
            self.refused(found, 3, "client.1 NoAccount")
            self.assertEqual(device.rows(), {})

    def test_an_account_that_is_there_already(self):
        with scripted.Rules() as server:
            device = self.ready(server.port)
            for identifier in ("alice", "bob"):
                self.stays(device, device.run("register", "--identifier", identifier, given=b"p\n"), "client.13 HasAccount alice")
            self.stays(device, device.run("signin", "--identifier", "bob", given=b"p\n"), "client.12 OtherAccount alice")
            self.assertEqual(server.count, 0)

    def test_a_cost_that_is_not_taken(self):
        for cost in (1, 109999, 10000001, 4294967295):
            with scripted.Scripted(lambda asked: scripted.answer(200, scripted.params_body(cost=cost))) as server:
                device = Device(self.path("cost-%d" % cost), server.port)
                self.refused(device.run("signin", "--identifier", "alice", given=b"p\n"), 3, "client.14 Cost %d" % cost)
                self.assertEqual((device.rows(), server.count), ({}, 1))

    def test_signing_in_again(self):
        with scripted.Rules() as server:
            device = Device(self.path("again"), server.port)
            device.register("alice", PASSWORD)
            device.put("{}")
            device.before, rows, asked = held(device), device.rows(), server.count
            self.stays(device, device.run("signin", "--identifier", "alice", given=b"p\n"), "client.11 WrongPassword")
            # Nothing of the other password was sent on.
            self.assertEqual(server.count, asked + 1)
            device.sign_in("alice", PASSWORD)
            self.assertEqual(device.rows(), rows)

    def test_no_item(self):
        device = self.ready()
        for command in ("edit", "del", "list"):
            self.stays(device, device.run(command, "--uuid", UUID, given=b"[]"), "client.2 NoItem " + UUID)

    def test_an_item_that_is_deleted(self):
        with scripted.Rules() as server:
            device = Device(self.path("deleted"), server.port)
            device.register("alice", PASSWORD)
            uuid = device.put("{}")
            device.sync()
            device.delete(uuid)
            device.before = held(device)
            for command in ("edit", "list"):
                self.stays(device, device.run(command, "--uuid", uuid, given=b"{}"), "client.2 NoItem " + uuid)
            device.delete(uuid)
            self.assertEqual(device.list(), ['%s deleted 0 "Note"' % uuid])
            device.sync()
            self.assertEqual(device.list(), [])
            self.refused(device.run("del", "--uuid", uuid), 3, "client.2 NoItem " + uuid)

    def test_an_item_that_is_dropped(self):
        """It was never sent, so it goes where it is deleted, and is none then."""
        device = self.device()
        uuid = device.put("{}")
        device.delete(uuid)
        self.assertEqual(device.list(), [])
        device.before = held(device)
        for command in ("edit", "del", "list"):
            self.stays(device, device.run(command, "--uuid", uuid, given=b"{}"), "client.2 NoItem " + uuid)

    def closed(self):
        """The content and the key of an item, sealed under a set that the device doesn't have."""
        content = independent.seal(b"{}", UUID, bytes(64), "alice", 110000, "6f", bytes(16))
        enc = independent.seal(bytes(64).hex().encode(), UUID, bytes(64), "alice", 110000, "6f", bytes(16))
        return {"uuid": UUID, "content": content, "enc_item_key": enc}

    def test_an_item_of_a_set_that_is_not_held(self):
        said = scripted.answer(200, scripted.sync_body(retrieved=[scripted.stored(self.closed())]))
        with scripted.Scripted(lambda asked: said) as server:
            device = self.device(server.port)
            device.sync()
        self.assertEqual(device.list(), ['%s closed 0 "Note"' % UUID])
        device.before = held(device)
        for command in ("edit", "list"):
            self.stays(device, device.run(command, "--uuid", UUID, given=b"[]"), "client.3 Closed 6f")
        device.delete(UUID)
        self.assertEqual(device.list(), ['%s deleted 0 "Note"' % UUID])

    def test_contents(self):
        device = self.ready()
        longest = '{"a":"%s"}' % ("x" * 699992)
        for given, line in (
            (longest.replace("x", "xx", 1), "client.4 TooLong 700001"),
            ("x" * 700001, "client.4 TooLong 700001"),
            ("\u00e9" * 350001, "client.4 TooLong 700002"),
            ("[]", "client.5 NotObject"),
            ("", "client.5 NotObject"),
            ("{}{}", "client.5 NotObject"),
            ("\ufeff{}", "client.5 NotObject"),
            ('{"a":' * 127 + "{}" + "}" * 127, "client.5 NotObject"),
        ):
            self.stays(device, device.run("put", given=given.encode()), line)
        # A note has 38 bytes beside its text and its title.
        self.stays(device, device.run("put", "--title", "t", given=b"x" * 699962), "client.4 TooLong 700001")
        uuid = device.put(longest)
        self.assertEqual(device.list(), ['%s draft 700000 "Note"' % uuid])
        self.assertEqual(device.content(uuid), longest)
        device.before = held(device)
        for given, line in (("x" * 700001, "client.4 TooLong 700001"), ("1", "client.5 NotObject")):
            self.stays(device, device.run("edit", "--uuid", uuid, given=given.encode()), line)

    def test_what_is_kept_byte_for_byte(self):
        device = self.device()
        nested = '{"a":' * 126 + "{}" + "}" * 126
        for content in (' {"b":1, "a" : "\\u00e9"}\n', '{"a":1,"a":2}', '{"a":1e300}', "{}", nested):
            uuid = device.put(content)
            self.assertEqual(device.content(uuid), content)
        titled = device.put('a "quoted"\n\ttext \\ \u00e9\x01', title='t "x" \u20ac')
        self.assertEqual(json.loads(device.content(titled)), {"references": [], "text": 'a "quoted"\n\ttext \\ \u00e9\x01', "title": 't "x" \u20ac'})
        self.assertEqual(device.content(titled), note('t "x" \u20ac', 'a "quoted"\n\ttext \\ \u00e9\x01'))

    def test_local_numbers_that_are_used_up(self):
        device = self.device()
        owner = device.rows()[17, ()]
        row = devices.owner_row(owner[0].encode(), owner[1], owner[2].encode(), next_number=(1 << 64) - 1)
        devices.add_batch(device.store, row)
        device.before = held(device)
        self.stays(device, device.run("put", given=b"{}"), "client.15 NumbersUsed 18446744073709551615")


class Faults(Case):
    def test_a_folder_that_is_not_there(self):
        device = Device(self.path("no/folder"), 1)
        for command, options in (("put", []), ("del", ["--uuid", UUID]), ("list", []), ("sync", [])):
            self.refused(device.run(command, *options, given=b"{}"), 4, "disk fault")
        self.assertEqual(os.listdir(self.place), [])

    def test_a_store_that_is_a_folder(self):
        self.refused(Device(self.place, 1).run("list"), 4, "disk fault")

    def test_a_store_that_another_process_holds(self):
        device = self.device()
        with open(device.store, "rb") as file:
            fcntl.flock(file, fcntl.LOCK_EX)
            for command, options in (("put", []), ("edit", ["--uuid", UUID]), ("del", ["--uuid", UUID]), ("list", []), ("sync", [])):
                self.refused(device.run(command, *options, given=b"{}"), 4, "disk fault")
        self.assertEqual(device.list(), [])
        self.assertEqual(held(device), registered())

    def test_a_store_whose_device_waits_for_its_server(self):
        found = []

        def says(asked):
            found.append(self.waiting.run("list"))
            return scripted.answer(200, scripted.sync_body())

        with scripted.Scripted(says) as server:
            self.waiting = self.device(server.port)
            self.waiting.sync()
        self.refused(found[0], 4, "disk fault")

    def test_no_server(self):
        device = self.device(closed_port())
        uuid = device.put("{}")
        self.refused(device.run("sync"), 5, "link fault")
        row = device.items()[uuid]
        self.assertEqual((row.base, row.now, row.posted), (None, "{}", "{}"))
        for command in ("register", "signin"):
            fresh = Device(self.path(command), closed_port())
            self.refused(fresh.run(command, "--identifier", "alice", given=b"p\n"), 5, "link fault")
            self.assertEqual(fresh.rows(), {})

    def test_a_connection_that_breaks(self):
        with scripted.Scripted(lambda asked: scripted.RESET) as server:
            device = self.device(server.port)
            uuid = device.put("{}")
            self.refused(device.run("sync"), 5, "link fault")
            self.assertEqual(device.list(), ['%s draft 2 "Note"' % uuid])

    def test_a_connection_that_breaks_at_the_second_request(self):
        """What the first answer settled stays."""
        first = []

        def says(asked):
            if first:
                return scripted.RESET
            first.append(asked)
            return scripted.answer(200, scripted.sync_body([scripted.stored(item) for item in asked.json()["items"]]))

        with scripted.Scripted(says) as server:
            device = self.device(server.port)
            # Two contents of the longest length, so that not all goes with one request.
            names = [device.put('{"a":"%s"}' % (str(n) * 699992)) for n in range(5)]
            self.refused(device.run("sync"), 5, "link fault")
            settled = {item["uuid"] for item in first[0].json()["items"]}
            self.assertTrue(0 < len(settled) < 5)
            marks = {line.split()[0]: line.split()[1] for line in device.list()}
            self.assertEqual(marks, {name: "clean" if name in settled else "draft" for name in names})

    def into_nothing(self, device, command, *options, given=b""):
        with open("/dev/full", "wb") as full:
            done = subprocess.run([program.SN, *device.words(command, *options)], input=given, stdout=full, stderr=subprocess.PIPE)
        self.assertEqual((done.returncode, done.stderr), (7, b"sn: write fault\n"), command)

    def test_an_output_that_takes_nothing(self):
        """What the command did stands."""
        with scripted.Rules() as server:
            device = Device(self.path("full"), server.port)
            self.into_nothing(device, "register", "--identifier", "alice", given=b"p\n")
            self.refused(device.run("register", "--identifier", "alice", given=b"p\n"), 3, "client.13 HasAccount alice")
            self.into_nothing(device, "put", given=b"{}")
            ((uuid, row),) = device.items().items()
            self.assertEqual(row.now, "{}")
            self.into_nothing(device, "edit", "--uuid", uuid, given=b'{"a":1}')
            self.assertEqual(device.items()[uuid].now, '{"a":1}')
            for options in ([], ["--uuid", uuid]):
                before = held(device)
                self.into_nothing(device, "list", *options)
                self.assertEqual(held(device), before)
            self.into_nothing(device, "sync")
            self.assertEqual(device.items()[uuid].base, '{"a":1}')
            self.into_nothing(device, "signin", "--identifier", "alice", given=b"p\n")
            self.into_nothing(device, "del", "--uuid", uuid)
            self.assertEqual(device.items()[uuid].now, DELETED)

    def test_an_output_that_is_closed(self):
        device = self.device()
        words = [program.SN, *device.words("put")]
        done = subprocess.run(words, input=b"{}", stdout=subprocess.DEVNULL, stderr=subprocess.PIPE, preexec_fn=lambda: os.close(1))
        self.assertEqual((done.returncode, done.stderr), (7, b"sn: write fault\n"))
        self.assertEqual([row.now for row in device.items().values()], ["{}"])

    def test_an_error_line_that_is_not_taken(self):
        device = self.device()
        with open("/dev/full", "wb") as full:
            done = subprocess.run([program.SN, *device.words("edit", "--uuid", UUID)], input=b"{}", stdout=subprocess.PIPE, stderr=full)
        self.assertEqual((done.returncode, done.stdout), (3, b""))


class Stores(Case):
    def commands(self, device):
        yield device.run("list")
        yield device.run("put", given=b"{}")
        yield device.run("sync")
        yield device.run("passwd", given=b"p\n")
        yield device.run("del", "--uuid", UUID)
        yield device.run("register", "--identifier", "alice", given=b"p\n")

    def stays(self, holds, line):
        with self.subTest(holds=holds[:40]):
            device = self.device(closed_port(), holds=holds)
            for found in self.commands(device):
                self.refused(found, 9, line)
            self.assertEqual(held(device), holds)

    def test_a_file_that_is_none(self):
        header = b"SNSYNC-JOURNALD1"
        self.stays(b"PK\3\4", "foreign 0")
        self.stays(b"SNSYNC-JOURNALS1\0", "foreign 14")
        self.stays(header[:-1] + b"2\0", "foreign 15")
        self.stays(b"SNSYNC", "foreign 6")

    def test_a_servers_store(self):
        with serving.Served(self.path("server")):
            pass
        with open(self.path("server"), "rb") as file:
            self.stays(file.read(), "foreign 14")

    def test_a_damaged_file(self):
        whole = registered()
        self.stays(b"SNSYNC-JOURNALD1", "damaged 16")
        self.stays(whole[:-1], "damaged %d" % (len(whole) - 1))
        self.stays(whole[:-2], "damaged 16")
        self.stays(whole[:-1] + b"\1", "damaged %d" % (len(whole) - 1))
        self.stays(devices.store_of(b"\2"), "damaged 16")
        # A server's rows, and a change that is cut off.
        self.stays(devices.store_of(devices.owner_row(), devices.put_row(1, b"", bytes(48))), "damaged %d" % (21 + len(devices.owner_row())))
        self.stays(devices.store_of(devices.owner_row()[:-1]), "damaged 16")

    def test_rows_that_are_not_sound(self):
        owner, present, uuid = devices.owner_row(next_number=2), devices.set_row(), UUID
        self.stays(devices.store_of(present), "rows 17")
        self.stays(devices.store_of(devices.item_row(1, uuid)), "rows 17")
        self.stays(devices.store_of(owner), "rows 18")
        self.stays(devices.store_of(owner + devices.set_row(1)), "rows 18")
        self.stays(devices.store_of(owner + present + devices.set_row(1) + devices.set_row(2)), "rows 18")
        # A number that isn't below the next, one uuid twice, a row with neither base nor draft.
        self.stays(devices.store_of(owner + present, devices.item_row(2, uuid)), "rows 19")
        twice = devices.item_row(0, uuid) + devices.item_row(1, uuid)
        self.stays(devices.store_of(owner + present, twice), "rows 19")
        self.stays(devices.store_of(owner + present + devices.item_row(1, uuid, now=b"\0")), "rows 19")

    def test_a_start_that_was_cut_off(self):
        for holds in (b"", b"S", b"x", b"\0NSYNC-JOU", b"\0NSYNC-JOURNALD1\0"):
            device = self.device(holds=holds)
            self.refused(device.run("list"), 3, "client.1 NoAccount")
            self.assertEqual(held(device), b"SNSYNC-JOURNALD1\0")

    def test_bytes_behind_the_last_gate_mean_nothing(self):
        device = self.device(holds=registered() + b"left by a crash")
        uuid = device.put("{}")
        self.assertEqual(device.list(), ['%s draft 2 "Note"' % uuid])


class ServerRefuses(Case):
    def test_accounts(self):
        with serving.Served(self.path("server")) as server:
            Device(self.path("a"), server.port).register("alice", PASSWORD)
            for command, identifier, line in (
                ("signin", "alice", "server 401 bad-auth"),
                ("signin", "bob", "server 404 unknown"),
                ("register", "alice", "server 409 taken"),
            ):
                device = Device(self.path(command + identifier), server.port)
                self.refused(device.run(command, "--identifier", identifier, given=b"p\n"), 10, line)
                self.assertEqual(device.rows(), {})
            # A device that was refused since there is no such account may begin it.
            Device(self.path("signinbob"), server.port).register("bob", PASSWORD)

    def test_a_session_that_is_over(self):
        with serving.Served(self.path("server")) as server:
            device = Device(self.path("a"), server.port)
            device.register("alice", PASSWORD)
            uuid = device.put("{}")
            _, _, pw, _, _ = device.rows()[18, (0,)]
            client = serving.Client(server.port)
            client.sign_in("alice", pw.hex())
            self.assertEqual(client.change(pw.hex(), "22" * 32, "6f")[0], 200)
            self.refused(device.run("sync"), 10, "server 401 bad-auth")
            self.assertEqual(device.list(), ['%s draft 2 "Note"' % uuid])

    def test_any_status_and_tag(self):
        for status, body, line in (
            (503, {"error": {"tag": "memory"}}, "server 503 memory"),
            (401, {"error": {"tag": "bad-auth"}}, "server 401 bad-auth"),
            (418, {"error": {"tag": "t", "number": 1, "more": []}}, "server 418 t"),
            (201, {"error": {"tag": ""}}, "server 201 "),
        ):
            with scripted.Scripted(lambda asked: scripted.answer(status, body)) as server:
                device = self.device(server.port)
                uuid = device.put("{}")
                self.refused(device.run("sync"), 10, line)
                self.assertEqual(device.list(), ['%s draft 2 "Note"' % uuid])


if __name__ == "__main__":
    unittest.main()

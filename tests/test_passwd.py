"""Changes of an account's password, by the built program: over two devices, with each message lost in turn, by a server that
answers otherwise, and with the command killed at any moment. What the stores hold is read and opened by the independent
implementation: under the new password alone, and the old one opens nothing at the server any more."""

import collections
import contextlib
import functools
import os
import random
import socket
import subprocess
import time
import unittest
import uuid as uuids

import devices
import independent
import program
import scripted
import serving
from devices import Device, Row

# How often a change is killed: so many times, or, where nothing else is asked, no longer than this.
KILLS = int(os.environ.get("SN_PASSWD_KILLS", "100"))
KILLING_SECONDS = float("inf") if "SN_PASSWD_KILLS" in os.environ else 60
FEWEST_KILLS = 20
SEED = 20261129

FIRST, SECOND, THIRD = "the first password", "the second password", "the third password"
UUID = "00000000-0000-4000-8000-000000000001"
SYNC, CHANGE, PARAMS, SIGN_IN = "/items/sync", "/auth/change_pw", "/auth/params", "/auth/sign_in"
LINK_FAULT = 5, b"", b"sn: link fault\n"
WRONG = 3, b"", b"sn: client.11 WrongPassword\n"
BAD_AUTH = 10, b"", b"sn: server 401 bad-auth\n"

SMALL = tuple('{"n":%d}' % n for n in range(3))
# More than one request takes, so that what is sealed anew goes in two, and comes in two pages.
LARGE = tuple('{"n":%d,"text":"%s"}' % (n, "x" * 690_000) for n in range(5))


def held(store):
    with open(store, "rb") as file:
        return file.read()


def carried(body):
    """The sets that the strings of an item's body carry."""
    return set() if body in ("none", "deleted") else {devices.carried(string) for string in body}


@functools.lru_cache(maxsize=None)
def prepared(contents):
    """The bytes of the stores of two devices and their server, with these contents on all of them."""
    with devices.folder() as place, serving.Served(os.path.join(place, "server")) as server:
        a, b = (Device(os.path.join(place, name), server.port) for name in "ab")
        a.register("alice", FIRST)
        for content in contents:
            a.put(content)
        a.sync()
        b.sign_in("alice", FIRST)
        b.sync()
        server.kill()
        return {name: held(os.path.join(place, name)) for name in ("a", "b", "server")}


class Account:
    """Two devices of one account and its server in a folder of their own, each device behind a proxy of its own."""

    def __init__(self, contents=SMALL, in_memory=True):
        self.given, self.in_memory = contents, in_memory

    def __enter__(self):
        with contextlib.ExitStack() as stack:
            self.place = stack.enter_context(devices.folder(self.in_memory))
            for name, data in prepared(self.given).items():
                with open(self.path(name), "wb") as file:
                    file.write(data)
            self.server = stack.enter_context(serving.Served(self.path("server")))
            self.proxies = [stack.enter_context(scripted.Dropping(self.server.port)) for _ in range(2)]
            self.stack = stack.pop_all()
        self.a, self.b = (Device(self.path(name), proxy.port) for name, proxy in zip("ab", self.proxies))
        self.contents = {uuid: row.base for uuid, row in self.a.items().items()}
        return self

    def __exit__(self, *raised):
        self.stack.__exit__(*raised)

    def path(self, name):
        return os.path.join(self.place, name)

    def rows(self):
        return devices.read(self.path("server"), b"S")

    def server_password(self, password, which):
        """What a device would send for this password under the account's set of this place."""
        return devices.keys_of("alice", password, *devices.params_of(self.rows(), "alice")[which])[0]

    def holds(self, *passwords):
        """The first of these passwords that is the account's."""
        (check,) = (row[2] for (kind, _), row in self.rows().items() if kind == 2)
        return next(each for each in passwords if independent.check_value(self.server_password(each, -1)) == check)


class Case(unittest.TestCase):
    def refused(self, found, status, line):
        self.assertEqual(found, (status, b"", b"sn: %s\n" % line.encode()))

    def at_rest(self, account, password, *those):
        """At the server and on these devices the same contents open under this password's keys, and nothing is left to do."""
        last = devices.versions(account.path("server"), "alice", password)
        found = {uuid: version.content for uuid, version in last.items() if version.content is not None}
        params = devices.params_of(account.rows(), "alice")[-1]
        for device in those:
            present, older, asked = device.sets()
            self.assertEqual((older, asked), (None, None))
            self.assertEqual((present[:2], present[2:]), (params, devices.keys_of("alice", password, *params)))
            wanted = {uuid: Row("Note", version.stamp, 0, version.content, None, None) for uuid, version in last.items() if uuid in found}
            self.assertEqual(device.items(), wanted)
            self.assertEqual(sorted(device.list()), sorted('%s clean %d "Note"' % (uuid, len(content)) for uuid, content in found.items()))
            self.assertEqual(device.contents(), found)
        return found

    def at_each_moment(self, account, *those):
        """What holds after each batch of the server's store and of these devices'."""
        for rows in devices.moments(account.path("server"), b"S"):
            self.at_a_server(rows)
        for device in those:
            for rows in devices.moments(device.store, b"D"):
                self.at_a_device(rows)

    def at_a_server(self, rows):
        """The undeleted items carry the last set or the one before."""
        for (kind, _), row in rows.items():
            if kind == 4 and not row[4]:
                self.assertLessEqual(carried(row[5:]), set(devices.params_of(rows, "alice")[-2:]))

    def at_a_device(self, rows):
        """A device that asks for a set has one besides, which all of its items carry; drafts always carry the present one."""
        present, older, asked = (rows.get((18, (which,))) for which in range(3))
        self.assertTrue(older is None or asked is None)
        has = {each[:2] for each in (present, older) if each is not None}
        for (kind, _), row in rows.items():
            if kind == 19:
                base, now, posted = row[5:]
                self.assertLessEqual(carried(base), has)
                self.assertLessEqual(carried(now) | carried(posted), {present[:2]})

    def over(self, account, password, which, token=None):
        """The server takes no longer this password, under the set of this place or the last one, nor this token."""
        client = serving.Client(account.server.port)
        pw = account.server_password(password, which)
        for each in (pw, account.server_password(password, -1)):
            self.refuses(client.sign_in("alice", each.hex()))
        if token is not None:
            client.token = token
            self.refuses(client.sync())
            self.refuses(client.change(pw.hex(), "33" * 32, "an unused nonce"))

    def refuses(self, answer):
        self.assertEqual(answer, (401, {"error": {"tag": "bad-auth"}}))


class TwoDevices(Case):
    def test_a_change(self):
        with Account() as account:
            a, b = account.a, account.b
            token = a.session()
            self.assertEqual(b.session(), token)
            a.passwd(SECOND)
            self.assertEqual(account.proxies[0].paths, [SYNC, CHANGE, SYNC])
            self.assertEqual(self.at_rest(account, SECOND, a), account.contents)
            self.over(account, FIRST, 0, token)
            # The other device learns of it at its next sync. What it has stays readable there.
            before = held(b.store)
            self.assertEqual(b.run("sync"), BAD_AUTH)
            self.assertEqual(b.run("passwd", given=b"x\n"), BAD_AUTH)
            self.assertEqual(b.contents(), account.contents)
            self.assertEqual(b.run("signin", "--identifier", "alice", given=FIRST.encode()), BAD_AUTH)
            self.assertEqual(held(b.store), before)
            b.sign_in("alice", SECOND)
            present, older, asked = b.sets()
            self.assertEqual((present, older[2:], asked), (a.sets()[0], devices.keys_of("alice", FIRST, *older[:2]), None))
            b.sync()
            self.assertEqual(self.at_rest(account, SECOND, a, b), account.contents)
            # Both devices know the new password, and no other.
            for device in (a, b):
                self.assertEqual(device.run("signin", "--identifier", "alice", given=FIRST.encode()), WRONG)
                device.sign_in("alice", SECOND)
            # A device that begins after it.
            c = Device(account.path("c"), account.server.port)
            self.assertEqual(c.run("signin", "--identifier", "alice", given=FIRST.encode()), BAD_AUTH)
            c.sign_in("alice", SECOND)
            c.sync()
            self.assertEqual(self.at_rest(account, SECOND, a, b, c), account.contents)
            self.at_each_moment(account, a, b, c)

    def test_what_old_keys_open(self):
        """The last versions don't open under the keys of before."""
        with Account() as account:
            _, _, _, master, authentication = account.a.sets()[0]
            account.a.passwd(SECOND)
            kept = [(key[0], row[5:]) for (kind, key), row in account.rows().items() if kind == 4]
            kept += [(row[0], row[5]) for (kind, _), row in account.a.rows().items() if kind == 19]
            self.assertEqual(len(kept), 6)
            for uuid, strings in kept:
                with self.assertRaises(AssertionError):
                    devices.content_of(*strings, str(uuids.UUID(bytes=uuid)), master + authentication)

    def test_changes_by_turns(self):
        """Each device changes the password once; what was put meanwhile goes with the change."""
        with Account() as account:
            a, b = account.a, account.b
            account.contents[a.put('{"by":"a"}')] = '{"by":"a"}'
            a.passwd(SECOND)
            self.assertEqual(self.at_rest(account, SECOND, a), account.contents)
            b.sign_in("alice", SECOND)
            account.contents[b.put('{"by":"b"}')] = '{"by":"b"}'
            token = b.session()
            b.passwd(THIRD)
            self.assertEqual(self.at_rest(account, THIRD, b), account.contents)
            self.over(account, SECOND, 1, token)
            a.sign_in("alice", THIRD)
            a.sync()
            # Back to the first password is a change as any other.
            a.passwd(FIRST)
            b.sign_in("alice", FIRST)
            b.sync()
            self.assertEqual(self.at_rest(account, FIRST, a, b), account.contents)
            self.assertEqual(len(set(devices.params_of(account.rows(), "alice"))), 4)
            self.at_each_moment(account, a, b)

    def test_the_keys_of_the_input(self):
        """The password is the first line as it stands, the cost that of the option."""
        for given, password, options, cost in (
            (b"p1\nmore\n", b"p1", [], 110000),
            (b"p1\r\n", b"p1\r", ["--cost", "110001"], 110001),
            ("\u00e9".encode(), "\u00e9".encode(), ["--cost=110000"], 110000),
            (FIRST.encode(), FIRST.encode(), [], 110000),
        ):
            with Account() as account:
                before = account.a.sets()[0][1]
                account.a.ok("passwd", *options, given=given)
                found, nonce, *keys = account.a.sets()[0]
                self.assertEqual((found, len(nonce)), (cost, 64))
                self.assertNotEqual(nonce, before)
                self.assertEqual(tuple(keys), independent.keys(password, b"alice", cost, nonce.encode()))
                self.assertEqual(devices.params_of(account.rows(), "alice")[-1], (cost, nonce))

    def test_an_account_without_notes(self):
        with Account(()) as account:
            account.a.passwd(SECOND)
            self.assertEqual(account.proxies[0].paths, [SYNC, CHANGE, SYNC])
            self.assertEqual(self.at_rest(account, SECOND, account.a), {})

    def test_an_output_that_takes_nothing(self):
        """The change stands."""
        with Account() as account, open("/dev/full", "wb") as full:
            words = [program.SN, *account.a.words("passwd")]
            done = subprocess.run(words, input=SECOND.encode(), stdout=full, stderr=subprocess.PIPE)
            self.assertEqual((done.returncode, done.stderr), (7, b"sn: write fault\n"))
            self.assertEqual(self.at_rest(account, SECOND, account.a), account.contents)


class Drafts(Case):
    """What another device wrote and didn't send outlasts two changes of the password."""

    def test_drafts_that_were_never_sent(self):
        for syncs in (False, True):
            with self.subTest(syncs=syncs), Account() as account:
                self.never_sent(account, syncs)

    def never_sent(self, account, syncs):
        a, b = account.a, account.b
        edited, deleted, _ = account.contents
        b.edit(edited, '{"n":"edited"}')
        b.delete(deleted)
        new = b.put('{"n":"new"}')
        found = self.through_two_changes(account, syncs)
        # The note has another version since, though of the same text: so the draft becomes a copy, and the deletion gives way.
        copy = '{"n":"edited","conflict_of":"%s"}' % edited
        (copied,) = found.keys() - account.contents.keys() - {new}
        self.assertEqual(found, {**account.contents, new: '{"n":"new"}', copied: copy})

    def test_drafts_whose_request_was_lost(self):
        with Account() as account:
            edited, deleted, new, later = self.sent(account, "request")
            found = self.through_two_changes(account)
            copy = '{"n":"again","conflict_of":"%s"}' % edited
            (copied,) = found.keys() - account.contents.keys() - {new, later}
            self.assertEqual(found, {**account.contents, new: '{"n":"new"}', later: '{"n":"later"}', copied: copy})

    def test_drafts_whose_answer_was_lost(self):
        """The server has what was sent, so nothing becomes a copy."""
        with Account() as account:
            edited, deleted, new, later = self.sent(account, "answer")
            del account.contents[deleted]
            found = self.through_two_changes(account)
            self.assertEqual(found, {**account.contents, edited: '{"n":"again"}', new: '{"n":"new"}', later: '{"n":"later"}'})

    def sent(self, account, lost):
        """Drafts of the second device that it sent, the request or the answer being lost; one was edited since, and one put."""
        b = account.b
        edited, deleted, _ = account.contents
        b.edit(edited, '{"n":"edited"}')
        b.delete(deleted)
        new = b.put('{"n":"new"}')
        account.proxies[1].lose(lost, 1)
        self.assertEqual(b.run("sync"), LINK_FAULT)
        account.proxies[1].lose(None, 0)
        b.edit(edited, '{"n":"again"}')
        return edited, deleted, new, b.put('{"n":"later"}')

    def through_two_changes(self, account, syncs=True):
        a, b = account.a, account.b
        waiting, listed = b.items(), b.list()
        a.passwd(SECOND)
        a.passwd(THIRD)
        # A sign-in that is refused, or gets through in part, changes nothing; a sync that is refused takes no draft.
        self.assertEqual(b.run("signin", "--identifier", "alice", given=SECOND.encode()), BAD_AUTH)
        for what in ("request", "answer"):
            for number in (1, 2):
                account.proxies[1].lose(what, number)
                self.assertEqual(b.run("signin", "--identifier", "alice", given=THIRD.encode()), LINK_FAULT)
        account.proxies[1].lose(None, 0)
        self.assertEqual((b.items(), b.list()), (waiting, listed))
        if syncs:
            self.assertEqual(b.run("sync"), BAD_AUTH)
        b.sign_in("alice", THIRD)
        self.assertEqual({uuid: row[3:5] for uuid, row in b.items().items()}, {uuid: row[3:5] for uuid, row in waiting.items()})
        self.assertEqual(b.list(), listed)
        devices.until_quiet(b, a)
        self.at_each_moment(account, a, b)
        return self.at_rest(account, THIRD, a, b)


class Lost(Case):
    """A change of which a request or an answer is lost, each in turn, and then each of what resolves it."""

    EXCHANGES = [SYNC, CHANGE, SYNC, SYNC]

    @contextlib.contextmanager
    def cut_off(self, what, number):
        """An account whose first device began a change, and lost this."""
        with Account(LARGE) as account:
            account.proxies[0].lose(what, number)
            self.assertEqual(account.a.run("passwd", given=SECOND.encode()), LINK_FAULT)
            self.assertEqual(account.proxies[0].paths, self.EXCHANGES[:number])
            account.proxies[0].lose(None, 0)
            yield account

    def each(self):
        for what in ("request", "answer"):
            for number in range(1, len(self.EXCHANGES) + 1):
                yield what, number

    def resolved(self, account, password, *others):
        a, b = account.a, account.b
        self.assertEqual(account.holds(password, *others), password)
        b.sign_in("alice", password)
        b.sync()
        self.assertEqual(self.at_rest(account, password, a, b), account.contents)
        for other in others:
            self.over(account, other, 0)
        self.at_each_moment(account, a, b)

    def test_nothing_is_lost(self):
        with Account(LARGE) as account:
            account.a.passwd(SECOND)
            self.assertEqual(account.proxies[0].paths, self.EXCHANGES)
            self.resolved(account, SECOND, FIRST)

    def test_resolved_by_a_sync(self):
        for what, number in self.each():
            with self.subTest(what=what, number=number), self.cut_off(what, number) as account:
                account.a.sync()
                # Before the change was asked for there is nothing to finish.
                self.resolved(account, *((FIRST, SECOND) if number == 1 else (SECOND, FIRST)))

    def test_resolved_by_another_change(self):
        for what, number in self.each():
            with self.subTest(what=what, number=number), self.cut_off(what, number) as account:
                # To the same password once more, or to another.
                last = {"request": SECOND, "answer": THIRD}[what]
                account.a.passwd(last)
                self.resolved(account, last, *sorted({FIRST, SECOND} - {last}))

    def test_resolved_by_a_sign_in(self):
        for what, number in self.each():
            with self.subTest(what=what, number=number), self.cut_off(what, number) as account:
                found = account.a.run("signin", "--identifier", "alice", given=SECOND.encode())
                if number == 1 or (what, number) == ("request", 2):
                    self.assertEqual(found, WRONG)
                    account.a.sign_in("alice", FIRST)
                else:
                    self.assertEqual(found, (0, b"ok\n", b""))
                account.a.sync()
                self.resolved(account, *((FIRST, SECOND) if number == 1 else (SECOND, FIRST)))

    def test_what_resolves_it_is_lost(self):
        """A sync that is cut off too is run again."""
        for first, exchanges in (("request", [PARAMS, CHANGE, SYNC, SYNC]), ("answer", [PARAMS, SIGN_IN, SYNC, SYNC])):
            for what, number in self.each():
                with self.subTest(first=first, what=what, number=number), self.cut_off(first, 2) as account:
                    asked = account.a.sets()[2]
                    self.assertEqual(asked[2:], devices.keys_of("alice", SECOND, *asked[:2]))
                    account.proxies[0].lose(what, number)
                    self.assertEqual(account.a.run("sync"), LINK_FAULT)
                    self.assertEqual(account.proxies[0].paths, exchanges[:number])
                    account.proxies[0].lose(None, 0)
                    account.a.sync()
                    self.assertEqual(account.a.sets()[0], asked)
                    self.resolved(account, SECOND, FIRST)

    def test_drafts_beside_a_change_that_is_asked_for(self):
        """The device goes on meanwhile: what is put and edited then is sent under the new keys."""
        for what in ("request", "answer"):
            with self.subTest(what=what), self.cut_off(what, 2) as account:
                edited = list(account.contents)[0]
                account.contents[account.a.put('{"n":"new"}')] = '{"n":"new"}'
                account.a.edit(edited, '{"n":"edited"}')
                account.contents[edited] = '{"n":"edited"}'
                account.a.sync()
                self.resolved(account, SECOND, FIRST)

    def test_another_device_is_first(self):
        """Where the account has neither set, the one that was asked for is dropped."""
        with self.cut_off("request", 2) as account:
            a, b = account.a, account.b
            b.passwd(THIRD)
            present = a.sets()[0]
            self.assertEqual(a.run("sync"), BAD_AUTH)
            self.assertEqual(account.proxies[0].paths, [PARAMS])
            self.assertEqual(a.sets(), [present, None, None])
            a.sign_in("alice", THIRD)
            a.sync()
            self.assertEqual(self.at_rest(account, THIRD, a, b), account.contents)
            self.over(account, SECOND, 0)
            self.at_each_moment(account, a, b)


class Refused(Case):
    def stays(self, device, line, *words, status=3):
        """A refusal of a change, or of these words, after which the store has the rows that it had."""
        before = device.rows()
        self.refused(device.run(*(words or ["passwd"]), given=b"no password of the account"), status, line)
        self.assertEqual(device.rows(), before)

    def test_no_account(self):
        with devices.folder() as place:
            device = Device(os.path.join(place, "fresh"), 1)
            self.refused(device.run("passwd", given=b"p\n"), 3, "client.1 NoAccount")
            self.assertEqual(device.rows(), {})

    def test_no_server(self):
        with socket.create_server(("127.0.0.1", 0)) as listener:
            port = listener.getsockname()[1]
        with Account() as account:
            device = Device(account.a.store, port)
            self.stays(device, "link fault", status=5)

    def test_a_change_that_is_not_finished(self):
        """A device that begins while another's change is unfinished doesn't change the password again. A wrong password is told
        from the new one."""
        with Account() as account:
            account.proxies[0].lose("answer", 2)
            self.assertEqual(account.a.run("passwd", given=SECOND.encode()), LINK_FAULT)
            account.proxies[0].lose(None, 0)
            older = account.a.sets()[0][1]
            c = Device(account.path("c"), account.server.port)
            c.sign_in("alice", SECOND)
            c.sync()
            first = list(account.contents)[0]
            self.assertEqual(c.list(), ['%s closed 0 "Note"' % uuid for uuid in account.contents])
            self.stays(c, "rekey.1 ChangeRunning " + first)
            self.stays(c, "client.3 Closed " + older, "edit", "--uuid", first)
            self.stays(c, "client.11 WrongPassword", "signin", "--identifier", "alice")
            fresh = Device(account.path("d"), account.server.port)
            self.refused(fresh.run("signin", "--identifier", "alice", given=b"x"), 10, "server 401 bad-auth")
            # The other device finishes it.
            account.a.sync()
            c.sync()
            self.assertEqual(self.at_rest(account, SECOND, account.a, c), account.contents)
            c.passwd(THIRD)
            self.assertEqual(self.at_rest(account, THIRD, c), account.contents)

    def test_an_older_set_that_an_item_keeps(self):
        """An item that names the account's set and doesn't open under it can't be sealed anew, so the older set stays."""
        with Account(()) as account:
            a = account.a
            cost, older, pw, *_ = a.sets()[0]
            client = serving.Client(account.server.port)
            client.sign_in("alice", pw.hex())
            client.sync([serving.item_of(UUID, b"no ciphertext", cost=cost, nonce=older)])
            a.passwd(SECOND)
            self.assertEqual(a.list(), ['%s closed 0 "Note"' % UUID])
            self.assertEqual(a.sets()[1][:2], (cost, older))
            self.stays(a, "rekey.1 ChangeRunning " + older)
            # Once it is deleted the change is finished.
            a.delete(UUID)
            a.sync()
            self.assertEqual(self.at_rest(account, SECOND, a), {})
            a.passwd(THIRD)
            self.assertEqual(self.at_rest(account, THIRD, a), {})


class Answered(Case):
    """What a server may answer to a change, and to what resolves it."""

    # How a change ended, the paths that it asked, its requests for the change, and of which passwords the device's sets are.
    Played = collections.namedtuple("Played", "found paths changes sets")
    OK = 0, b"ok\n", b""
    DONE, DROPPED, KEPT = [SECOND, None, None], [FIRST, None, None], [FIRST, None, SECOND]

    def says(self, status, tag):
        return lambda asked: scripted.answer(status, {"error": {"tag": tag}})

    def session(self, asked):
        return scripted.answer(200, scripted.account_body(token="another"))

    def old(self, asked):
        """The parameters of the device's present set."""
        cost, nonce, *_ = self.present
        return scripted.answer(200, scripted.params_body(cost=cost, nonce=nonce))

    def new(self, asked):
        """Those of the set that was asked for."""
        (change, *_) = (each.json() for each in asked if each.target == CHANGE)
        return scripted.answer(200, scripted.params_body(cost=change["pw_cost"], nonce=change["pw_nonce"]))

    def other(self, asked):
        """Those of neither."""
        return scripted.answer(200, scripted.params_body(nonce="6e"))

    def play(self, *said):
        """A change of a device without items, whose requests but for syncs are answered by what is said."""
        seen, left = [], list(said)

        def answers(asked):
            seen.append(asked)
            if asked.target == SYNC:
                return scripted.answer(200, scripted.sync_body())
            return left.pop(0)(seen)

        with devices.folder() as place, scripted.Scripted(answers) as server:
            device = Device(os.path.join(place, "device"), server.port)
            with open(device.store, "wb") as file:
                file.write(prepared(())["a"])
            self.present = device.sets()[0]
            found = device.run("passwd", given=SECOND.encode())
            self.assertEqual(left, [])
            paths = [each.target.partition("?")[0] for each in seen]
            changes = [each for each in seen if each.target == CHANGE]
            return self.Played(found, paths, changes, [self.whose(each) for each in device.sets()])

    def whose(self, held):
        """The password of a set that the device has."""
        if held is None:
            return None
        (found,) = (password for password in (FIRST, SECOND) if devices.keys_of("alice", password, *held[:2]) == held[2:])
        return found

    def ends(self, played, found, paths, sets):
        self.assertEqual((played.found, played.paths, played.sets), (found, [SYNC, CHANGE, *paths], sets))

    def refusal(self, status, tag):
        return 10, b"", b"sn: server %d %s\n" % (status, tag.encode())

    def test_the_change(self):
        self.ends(self.play(self.session), self.OK, [SYNC], self.DONE)
        for status, tag in ((409, "rekey-running"), (409, "nonce-used"), (409, "changes-used"), (503, "memory"), (400, "member")):
            self.ends(self.play(self.says(status, tag)), self.refusal(status, tag), [], self.DROPPED)
        self.ends(self.play(lambda asked: scripted.RESET), LINK_FAULT, [], self.KEPT)
        bad = 11, b"", b"sn: answer member token\n"
        self.ends(self.play(lambda asked: scripted.answer(200, {})), bad, [], self.KEPT)

    def test_a_session_that_is_over_is_resolved(self):
        over = self.says(401, "bad-auth")
        played = self.play(over, self.old, self.session)
        self.ends(played, self.OK, [PARAMS, CHANGE, SYNC], self.DONE)
        # The same change was asked for again.
        first, again = played.changes
        self.assertEqual(first.data, again.data)
        self.ends(self.play(over, self.new, self.session), self.OK, [PARAMS, SIGN_IN, SYNC], self.DONE)

    def test_a_resolving_that_is_refused(self):
        over = self.says(401, "bad-auth")
        for answers, status, tag, paths, sets in (
            ([self.other], 401, "bad-auth", [PARAMS], self.DROPPED),
            ([self.says(401, "t")], 401, "t", [PARAMS], self.DROPPED),
            ([self.says(503, "memory")], 503, "memory", [PARAMS], self.KEPT),
            ([self.old, self.says(401, "t")], 401, "t", [PARAMS, CHANGE], self.DROPPED),
            ([self.old, self.says(409, "nonce-used")], 409, "nonce-used", [PARAMS, CHANGE], self.DROPPED),
            ([self.new, self.says(401, "t")], 401, "t", [PARAMS, SIGN_IN], self.DROPPED),
            ([self.new, self.says(503, "memory")], 503, "memory", [PARAMS, SIGN_IN], self.KEPT),
        ):
            with self.subTest(status=status, tag=tag, paths=paths):
                self.ends(self.play(over, *answers), self.refusal(status, tag), paths, sets)

    def test_what_is_sent(self):
        """The keys that open the notes stay on the device, the old ones and the new."""
        (change,) = self.play(self.session).changes
        cost, nonce, pw, *old = self.present
        body = change.json()
        new, *keys = devices.keys_of("alice", SECOND, body["pw_cost"], body["pw_nonce"])
        wanted = {"current_password": pw.hex(), "new_password": new.hex(), "pw_cost": 110000, "pw_nonce": body["pw_nonce"], "version": "003"}
        self.assertEqual((change.method, body), ("POST", wanted))
        self.assertNotEqual(body["pw_nonce"], nonce)
        for secret in (*keys, *old, FIRST.encode(), SECOND.encode()):
            for spelled in (secret, secret.hex().encode()):
                self.assertNotIn(spelled, change.data)


class Killed(Case):
    """A change that is killed at any moment, and then resolved."""

    def wait(self, process, store):
        """Until some moment: a part of the time that a change takes, or shortly after one of its writes."""
        if self.drawn.random() < 0.5:
            time.sleep(self.drawn.uniform(0, 1.1 * self.taken))
            return
        until = time.monotonic() + 2
        for _ in range(self.drawn.randrange(1, 9)):
            size = os.path.getsize(store)
            while os.path.getsize(store) == size and process.poll() is None and time.monotonic() < until:
                pass
        time.sleep(self.drawn.choice((0, 0, self.drawn.uniform(0, self.taken / 10))))

    def killed(self, device, password):
        """Whether it was killed before its end, and whether it told of its success."""
        began = time.monotonic()
        pipes = dict(stdin=subprocess.PIPE, stdout=subprocess.PIPE, stderr=subprocess.PIPE)
        with subprocess.Popen([program.SN, *device.words("passwd")], **pipes) as process:
            process.stdin.write(password.encode())
            process.stdin.close()
            self.wait(process, device.store)
            process.kill()
            out, err = process.stdout.read(), process.stderr.read()
            status = process.wait()
        self.assertIn((status, out, err), ((0, b"ok\n", b""), (-9, b"", b""), (-9, b"ok\n", b"")))
        if status == 0:
            self.taken = 0.7 * self.taken + 0.3 * (time.monotonic() - began)
        return status != 0, out != b""

    def resolve(self, account, way, old, new, newer):
        """The passwords of which the account may have one then."""
        a = account.a
        if way == "passwd":
            a.passwd(newer)
            return (newer,)
        if way == "signin":
            found = a.run("signin", "--identifier", "alice", given=new.encode())
            if found == WRONG:
                a.sign_in("alice", old)
            else:
                self.assertEqual(found, (0, b"ok\n", b""))
        a.sync()
        return old, new

    def test_killed_at_any_moment(self):
        self.drawn = random.Random(SEED)
        kills, unharmed, changed = 0, 0, 0
        # On a disk, where a command spends most of its time between its writes.
        with Account(in_memory=False) as account:
            # Without the proxy, which waits for whole requests.
            account.a.server = "127.0.0.1:%d" % account.server.port
            began = time.monotonic()
            account.a.passwd(SECOND)
            self.taken, password = time.monotonic() - began, SECOND
            note = list(account.contents)[0]
            while kills < KILLS and (kills < FEWEST_KILLS or time.monotonic() - began < KILLING_SECONDS):
                self.assertLess(unharmed, 10 * KILLS + 50)
                number = kills + unharmed
                account.contents[note] = '{"n":"%d"}' % number
                account.a.edit(note, account.contents[note])
                old, new, newer = password, "password %d" % number, "newer password %d" % number
                was_killed, told = self.killed(account.a, new)
                kills += was_killed
                unharmed += not was_killed
                may = (new,)
                if was_killed:
                    way = self.drawn.choice(("sync", "passwd", "signin"))
                    may = self.resolve(account, way, new if told else old, new, newer)
                password = account.holds(*sorted(set(may)))
                changed += password != old
                self.assertEqual(self.at_rest(account, password, account.a), account.contents)
                if number % 5 == 4:
                    account.b.sign_in("alice", password)
                    account.b.sync()
                    self.assertEqual(self.at_rest(account, password, account.a, account.b), account.contents)
            self.at_each_moment(account, account.a, account.b)
        print("killed %d; %d ended first; %d changes" % (kills, unharmed, changed), end=" ... ", flush=True)


if __name__ == "__main__":
    unittest.main()

"""Devices of the built program, each over a store of its own, and what its store and a server's hold: read from their
bytes, and opened by the independent implementation. So a check can tell what the program says from what it keeps."""

import base64
import collections
import contextlib
import functools
import json
import os
import tempfile
import uuid as uuids

import independent
import journal
import program
import serving

# What is checked so often that a disk would take minutes of syncs stands in memory, where the system has such files.
MEMORY = "/dev/shm" if os.access("/dev/shm", os.W_OK) else None
DELETED = "deleted"

# A device's row of an item: the version that it stands on, the draft, and what was sent of it; each is None, DELETED or
# the content that its strings open to.
Row = collections.namedtuple("Row", "kind stamp stale base now posted")
# A server's last version of an item; the content of a deleted one is None.
Version = collections.namedtuple("Version", "kind stamp content")


@contextlib.contextmanager
def folder(in_memory=True):
    with tempfile.TemporaryDirectory(prefix="sn-devices-", dir=MEMORY if in_memory else None) as path:
        yield path


class Device:
    """The commands of one device, which answers at this port of loopback is the server's."""

    def __init__(self, store, port):
        self.store, self.server = store, "127.0.0.1:%d" % port

    def words(self, command, *options):
        words = [command, "--store", self.store]
        if command in ("register", "signin", "sync", "passwd"):
            words += ["--server", self.server]
        return words + list(options)

    def run(self, command, *options, given=b""):
        """Status, output and the line on standard error."""
        return program.run(self.words(command, *options), given)

    def done(self, command, *options, given=b""):
        """The output of a command that is to succeed."""
        status, out, err = self.run(command, *options, given=given)
        if (status, err) != (0, b""):
            raise AssertionError("%s %s: status %d, %r" % (command, " ".join(options), status, err))
        return out

    def ok(self, command, *options, given=b""):
        out = self.done(command, *options, given=given)
        if out != b"ok\n":
            raise AssertionError("%s wrote %r" % (command, out))

    def register(self, identifier, password):
        self.ok("register", "--identifier", identifier, given=password.encode() + b"\n")

    def sign_in(self, identifier, password):
        self.ok("signin", "--identifier", identifier, given=password.encode() + b"\n")

    def passwd(self, password, *options):
        self.ok("passwd", *options, given=password.encode() + b"\n")

    def put(self, content, title=None):
        """The new item's uuid."""
        options = [] if title is None else ["--title", title]
        out = self.done("put", *options, given=content.encode()).decode()
        if not (out.endswith("\n") and independent.UUID.fullmatch(out[:-1])):
            raise AssertionError("put wrote %r" % out)
        return out[:-1]

    def edit(self, uuid, content):
        self.ok("edit", "--uuid", uuid, given=content.encode())

    def delete(self, uuid):
        self.ok("del", "--uuid", uuid)

    def sync(self):
        self.ok("sync")

    def list(self):
        """A line of each item."""
        return self.done("list").decode().splitlines()

    def content(self, uuid):
        return self.done("list", "--uuid", uuid).decode()

    def contents(self):
        """By uuid what the program tells of each item that isn't deleted."""
        lines = [line.split(" ") for line in self.list()]
        return {uuid: self.content(uuid) for uuid, mark, *_ in lines if mark not in ("deleted", "closed")}

    def rows(self):
        return read(self.store, b"D")

    def sets(self):
        """The present set, the older and the asked one, or None: each its cost, its nonce and its three keys."""
        rows = self.rows()
        return [rows.get((18, (which,))) for which in range(3)]

    def session(self):
        """The token of the session."""
        return self.rows()[17, ()][2]

    def items(self):
        """By uuid the items, in local order, opened under the set that the store holds."""
        rows = self.rows()
        _, _, _, master, authentication = rows[18, (0,)]
        found = {}
        for kind, key in sorted(rows):
            if kind == 19:
                name, type_, _, stamp, stale, *bodies = rows[kind, key]
                uuid = str(uuids.UUID(bytes=name))
                found[uuid] = Row(type_, stamp, stale, *(opened(body, uuid, master + authentication) for body in bodies))
        return found


def shown(row):
    """What a list tells of a row: its draft, else the version that it stands on."""
    return row.base if row.now is None else row.now


def read(store, owner):
    with open(store, "rb") as file:
        return journal.rows(file.read(), owner)


def moments(store, owner):
    """The rows after each batch of a store, in turn."""
    with open(store, "rb") as file:
        yield from journal.moments(file.read(), owner)


def opened(body, uuid, keys):
    if body == "none":
        return None
    return DELETED if body == "deleted" else content_of(*body, uuid, keys)


@functools.lru_cache(maxsize=None)
def content_of(content, enc, uuid, keys):
    """The text of an item's two strings: one opens to the item's key, under which the other opens."""
    key, _ = independent.open_string(enc, uuid, keys)
    return independent.open_string(content, uuid, bytes.fromhex(key.decode()))[0].decode()


def carried(string):
    """The cost and the nonce of the set that a string names."""
    params = json.loads(base64.b64decode(string.rpartition(":")[2], validate=True))
    return params["pw_cost"], params["pw_nonce"]


@functools.lru_cache(maxsize=None)
def keys_of(identifier, password, cost, nonce):
    return independent.keys(password.encode(), identifier.encode(), cost, nonce.encode())


def versions(store, identifier, password):
    """By uuid the last versions of an account, opened under the keys of its password."""
    return versions_in(read(store, b"S"), identifier, password)


def versions_then(file, identifier, password):
    """By uuid the last versions of an account after each batch of a store's bytes; its password was never changed."""
    for rows in journal.moments(file, b"S"):
        if any(kind == 2 and row[0] == identifier for (kind, _), row in rows.items()):
            yield versions_in(rows, identifier, password)


def versions_ever(file, identifier, password):
    """By uuid the contents of all versions that an account ever had by a store's bytes; its password was never changed."""
    found = {}
    for last in versions_then(file, identifier, password):
        for uuid, version in last.items():
            found.setdefault(uuid, set()).add(version.content)
    return found


def versions_in(rows, identifier, password):
    """By uuid the versions of an account in these rows of a server."""
    (number,) = (key[0] for (kind, key), row in rows.items() if kind == 2 and row[0] == identifier)
    cost, nonce = rows[3, (number, rows[2, (number,)][1])]
    pw, *keys = keys_of(identifier, password, cost, nonce)
    if rows[2, (number,)][2] != independent.check_value(pw):
        raise AssertionError("the check value isn't that of the password")
    found = {}
    for (kind, key), row in rows.items():
        if kind == 4 and row[0] == number:
            uuid = str(uuids.UUID(bytes=key[0]))
            _, type_, _, stamp, deleted, content, enc = row
            found[uuid] = Version(type_, stamp, None if deleted else content_of(content, enc, uuid, b"".join(keys)))
    return found


def params_of(rows, identifier):
    """The cost and the nonce of each set of an account, in order, by a server's rows."""
    (number,) = (key[0] for (kind, key), row in rows.items() if kind == 2 and row[0] == identifier)
    return [rows[3, (number, generation)] for generation in range(1, rows[2, (number,)][1] + 1)]


def text(data):
    """A text in a row."""
    return len(data).to_bytes(4, "big") + data


def put_row(kind, key, value):
    """The change that puts a row."""
    return bytes([1, kind]) + text(key) + text(value)


def remove_row(kind, key):
    """The change that removes one."""
    return bytes([0, kind]) + text(key)


def owner_row(identifier=b"alice", account=bytes(16), token=b"token", tokens=(b"", b""), next_number=1):
    columns = text(identifier), account, text(token), *map(text, tokens), next_number.to_bytes(8, "big")
    return put_row(17, b"", b"".join(columns))


def set_row(which=0, cost=110000, nonce=b"6e", keys=bytes(96)):
    return put_row(18, bytes([which]), cost.to_bytes(4, "big") + text(nonce) + keys)


def item_row(number, uuid, now=b"\1", kind=b"Note", stamp=None, stale=False, base=b"\0", posted=b"\0"):
    """A row without a base, whose draft is a deletion where nothing else is said."""
    version = bytes([stamp is not None]) + (stamp or 0).to_bytes(8, "big") + bytes([stale])
    columns = uuids.UUID(uuid).bytes, text(kind), version, base, now, posted
    return put_row(19, number.to_bytes(8, "big"), b"".join(columns))


def store_of(*payloads, owner=b"D"):
    """The bytes of a store with these batches."""
    batches = (b"\1" + text(payload) for payload in payloads)
    return journal.header(owner) + b"".join(batches) + b"\0"


def add_batch(store, payload):
    """Adds a batch to a store at rest."""
    with open(store, "rb") as file:
        held = file.read()
    if held[-1:] != b"\0":
        raise AssertionError("the store doesn't end in a closed gate")
    with open(store, "wb") as file:
        file.write(held[:-1] + b"\1" + text(payload) + b"\0")


def until_quiet(*those):
    """Syncs these in turn until a whole round changes no store."""
    for _ in range(20):
        before = [device.rows() for device in those]
        for device in those:
            device.sync()
        if [device.rows() for device in those] == before:
            return
    raise AssertionError("the devices don't come to rest")

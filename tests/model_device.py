"""The model's devices: what each call asks, keeps and makes of an answer."""

from model_items import DELETED, LONGEST_TEXT, KeySet, Sealed, copy_of, is_object
from model_server import BAD_AUTH, MOST_BYTES, MOST_ITEMS, Change, Foreign, Params, Refusal, Register, Sent, SignIn, Sync


class Ended(Exception):
    """How a line ends, where it doesn't end with `= ok`."""

    def __init__(self, last):
        super().__init__(last)
        self.last = last


def refused(text):
    return Ended("= refused " + text)


def granted(answer):
    """An answer that is no refusal."""
    if isinstance(answer, Refusal):
        raise Ended("= server %d %s" % answer)
    return answer


class Row:
    """An item of a device: the version that it stands on, and whether that was sealed again and is to be sent; its draft, and what was
    sent of that and isn't answered."""

    def __init__(self, uuid, base=None, now=None):
        self.uuid, self.base, self.now, self.posted = uuid, base, now, None
        self.stale = False

    @property
    def stamp(self):
        return self.base and self.base.stamp

    def waits(self):
        return self.now is not None or self.stale


class Device:
    """The rows stand in local order. `made` has the requests that the device ever made, as they were sent. Of its key sets `keys` is the
    present one, `older` the one before while items may carry it, `wanted` the one of a change that no answer has come to yet."""

    def __init__(self, name, report, server):
        self.name, self.report, self.server = name, report, server
        self.keys = self.older = self.wanted = None
        self.session = self.sync_token = self.cursor = None
        self.rows, self.made = [], []

    def say(self, word, uuid, more=""):
        self.report.say("%s %s %s%s" % (word, self.name, self.report.label(uuid), more and " " + more))

    def row(self, uuid):
        return next((row for row in self.rows if row.uuid == uuid), None)

    def held(self):
        return [keys for keys in (self.older, self.keys) if keys is not None]

    def opens(self, body):
        return body is not None and body.keys in self.held()

    def is_closed(self, row):
        return row.now is None and not self.opens(row.base.body)

    # ---- an account

    def register(self, link, identifier, password, cost):
        if self.keys is not None:
            raise refused("client.13 HasAccount " + self.keys.identifier)
        self.join(granted(link.ask(Register(KeySet(identifier, password, cost)))).keys)

    def sign_in(self, link, identifier, password):
        if self.keys is not None and self.keys.identifier != identifier:
            raise refused("client.12 OtherAccount " + self.keys.identifier)
        given = granted(link.ask(Params(identifier))).keys
        keys = given.derived(password)
        if given in self.held() and keys is not given:
            raise refused("client.11 WrongPassword")
        granted(link.ask(SignIn(keys)))
        if self.keys is None:
            self.join(keys)
        elif keys is not self.keys:
            self.adopt(keys)
        self.session = self.keys.number

    def join(self, keys):
        self.keys, self.session = keys, keys.number
        self.report.say("join %s %s set %d" % (self.name, keys.identifier, keys.number))

    # ---- edits

    def needs_account(self):
        if self.keys is None:
            raise refused("client.1 NoAccount")

    def needs_row(self, uuid, edited):
        row = self.row(uuid)
        if row is None or (edited and row.now is DELETED):
            raise refused("client.2 NoItem " + self.report.label(uuid))
        return row

    def sealed(self, text):
        size = len(text.encode())
        if size > LONGEST_TEXT:
            raise refused("client.4 TooLong %d" % size)
        if not is_object(text):
            raise refused("client.5 NotObject")
        return Sealed(text, self.keys)

    def put(self, text):
        self.needs_account()
        body = self.sealed(text)
        self.rows.append(Row(self.report.fresh(), now=body))
        self.say("edit", self.rows[-1].uuid, self.report.shown(body))

    def edit(self, uuid, text):
        self.needs_account()
        row = self.needs_row(uuid, True)
        if self.is_closed(row):
            raise refused("client.3 Closed set %d" % row.base.body.keys.number)
        row.now = self.sealed(text)
        self.say("edit", uuid, self.report.shown(row.now))

    def delete(self, uuid):
        self.needs_account()
        row = self.needs_row(uuid, False)
        if row.base is None and row.posted is None:
            self.rows.remove(row)
            self.say("drop", uuid)
        else:
            row.now = DELETED
            self.say("edit", uuid, "deleted")

    # ---- a change of password

    def passwd(self, link, password, cost):
        self.needs_account()
        self.sync(link)
        if self.older is not None:
            raise refused("rekey.1 ChangeRunning set %d" % self.older.number)
        for row in self.rows:
            if row.base is not None and row.base.body.keys is not self.keys:
                raise refused("rekey.1 ChangeRunning " + self.report.label(row.uuid))
        self.wanted = KeySet(self.keys.identifier, password, cost)
        answer = link.ask(self.change())
        if answer == BAD_AUTH:
            self.resolve(link)
        else:
            self.changed(answer)
        self.exchanges(link)

    def change(self):
        return Change(self.keys.identifier, self.session, self.keys, self.wanted)

    def changed(self, answer):
        if isinstance(answer, Refusal):
            self.wanted = None
        self.adopt(granted(answer).keys)

    def resolve(self, link):
        """Finds out what became of a change that no answer has come to."""
        given = granted(link.ask(Params(self.keys.identifier))).keys
        if given is self.keys:
            self.changed(link.ask(self.change()))
        elif given is self.wanted:
            self.adopt(granted(link.ask(SignIn(self.wanted))).keys)
        else:
            self.wanted = None
            granted(BAD_AUTH)

    def adopt(self, keys):
        """The set is the present one, and the present one the older. What opens is sealed again under it."""
        if self.older is not None:
            self.report.say("retire %s set %d" % (self.name, self.older.number))
        for row in self.rows:
            if row.base is not None and self.opens(row.base.body):
                row.base, row.stale = row.base._replace(body=Sealed(row.base.body.text, keys)), True
            row.now, row.posted = (Sealed(body.text, keys) if self.opens(body) else body for body in (row.now, row.posted))
        self.older, self.wanted = self.keys, None
        self.join(keys)
        for row in self.rows:
            if row.posted is not None and self.server.stamp_in(keys.identifier, row.uuid) == row.stamp:
                self.say("unpost", row.uuid)
                self.say("post", row.uuid)

    def retire(self):
        """The older set ends where nothing needs it any more."""
        bodies = [body for row in self.rows for body in (row.base and row.base.body, row.now, row.posted) if body is not None]
        if self.older is None or any(row.stale for row in self.rows) or any(body.keys is self.older for body in bodies):
            return
        self.report.say("retire %s set %d" % (self.name, self.older.number))
        self.older = None

    # ---- syncs

    def sync(self, link):
        self.needs_account()
        if self.wanted is not None:
            self.resolve(link)
        self.exchanges(link)

    def exchanges(self, link):
        while True:
            front = self.front()
            for row in front:
                if row.now is not None and row.posted is None:
                    row.posted = row.now
                    self.say("post", row.uuid)
            items = [Sent(row.uuid, row.stamp, row.posted or row.base.body, row.posted is None) for row in front]
            self.apply(granted(link.ask(Sync(self.keys.identifier, self.session, items, self.sync_token, self.cursor))))
            if self.cursor is None and not any(row.waits() for row in self.rows):
                return

    def front(self):
        """The rows which one request has."""
        waiting = [row for row in self.rows if row.waits()]
        size = count = 0
        for row in waiting[:MOST_ITEMS]:
            size += (row.posted or row.now or row.base.body).size
            if count > 0 and size > MOST_BYTES:
                break
            count += 1
        return waiting[:count]

    def apply(self, answer):
        saved = {version.uuid for version in answer.saved}
        for version in answer.saved:
            self.meet(version, True)
        for conflict in answer.conflicts:
            if isinstance(conflict, Foreign):
                self.rename(self.row(conflict.uuid))
            else:
                self.meet(conflict, False)
        for version in answer.retrieved:
            if version.uuid not in saved:
                self.meet(version, False)
        self.sync_token, self.cursor = answer.sync_token, answer.cursor
        if self.cursor is None:
            self.retire()

    def has_content(self, body, version):
        """Whether both are deleted, or the same strings, or strings that open to one text."""
        if body is None or body is version.body:
            return body is not None
        return self.opens(body) and self.opens(version.body) and body.text == version.body.text

    def meet(self, version, saved):
        """A version of the server's meets an item, if that is there."""
        row = self.row(version.uuid)
        if row is None:
            if version.body is not DELETED:
                self.rows.append(Row(version.uuid))
                self.stand_on(self.rows[-1], version)
            return
        if not saved and row.base is not None and version.stamp <= row.base.stamp:
            return
        ends = self.has_content(row.now, version)
        if not ends and self.has_content(row.posted, version):
            self.say("settle", row.uuid, "@%d" % version.stamp)
            row.posted = None
        elif row.now is not None:
            self.end_draft(row, version, ends)
        self.stand_on(row, version)

    def stand_on(self, row, version):
        """What opens under the older set is sealed again. A deletion takes the row away."""
        row.base, row.stale = version, version.body is not DELETED and version.body.keys is self.older
        if row.stale:
            row.base = version._replace(body=Sealed(version.body.text, self.keys))
        if version.body is DELETED:
            self.rows.remove(row)

    def end_draft(self, row, version, ends):
        """The draft ends, since the version has its content, or as a deletion that gives way, or goes on as a copy."""
        if ends:
            self.say("settle", row.uuid)
        elif row.now is DELETED:
            self.say("giveway", row.uuid)
        else:
            copy = Sealed(copy_of(row.now.text, row.uuid), self.keys)
            self.rows.append(Row(self.report.fresh(), now=copy))
            self.say("fork", row.uuid, self.report.label(self.rows[-1].uuid))
        row.now = row.posted = None

    def rename(self, row):
        """Another account has the uuid: the item goes on under a fresh one, but a deletion goes. Since uuids are drawn, no script
        is known in which it comes to that."""
        if row.now is DELETED:
            self.rows.remove(row)
            self.say("drop", row.uuid)
            return
        former, row.uuid = row.uuid, self.report.fresh()
        row.now, row.posted = Sealed(row.now.text, self.keys), None
        self.say("rename", former, self.report.label(row.uuid))

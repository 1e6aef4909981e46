"""The model's server: what it answers to a request, and what that changes."""

from collections import namedtuple

from model_items import DELETED

LAST_STAMP = 253402300799999999
MOST_BYTES = 4194304
MOST_ITEMS = 150

# Requests. A session is the number of the key set that it began under. An item that is sent has the stamp of the version that it
# stands on, or None, and whether it is that version, sealed again.
Register = namedtuple("Register", "keys")
Params = namedtuple("Params", "identifier")
SignIn = namedtuple("SignIn", "keys")
Change = namedtuple("Change", "identifier session current keys")
Sync = namedtuple("Sync", "identifier session items sync_token cursor")
Sent = namedtuple("Sent", "uuid stamp body again")

# Answers. Among the conflicts of a sync are versions, and items whose uuid another account has.
Refusal = namedtuple("Refusal", "status tag")
Granted = namedtuple("Granted", "keys")
Synced = namedtuple("Synced", "saved conflicts retrieved cursor sync_token")
Version = namedtuple("Version", "uuid stamp body")
Foreign = namedtuple("Foreign", "uuid")

BAD_AUTH = Refusal(401, "bad-auth")


class Server:
    """The key sets of each account by its identifier, the last of them its present one; the last version of each item by its uuid,
    and the account that has it."""

    def __init__(self, report):
        self.report, self.last = report, 0
        self.accounts, self.owners, self.versions = {}, {}, {}

    def handle(self, request, now):
        rules = {Register: self.register, Params: self.params, SignIn: self.sign_in, Change: self.change, Sync: self.sync}
        return rules[type(request)](request, now)

    def keys(self, identifier):
        """The present key set of an account that is there."""
        return self.accounts[identifier][-1]

    def begin(self, keys):
        sets = self.accounts.setdefault(keys.identifier, [])
        sets.append(keys)
        keys.number = len(sets)
        return Granted(keys)

    def register(self, asked, _now):
        if asked.keys.identifier in self.accounts:
            return Refusal(409, "taken")
        self.report.say("register %s set 1" % asked.keys.identifier)
        return self.begin(asked.keys)

    def params(self, asked, _now):
        return Granted(self.keys(asked.identifier)) if asked.identifier in self.accounts else Refusal(404, "unknown")

    def sign_in(self, asked, _now):
        if asked.keys.identifier not in self.accounts:
            return Refusal(404, "unknown")
        keys = self.keys(asked.keys.identifier)
        return Granted(keys) if asked.keys is keys else BAD_AUTH

    def change(self, asked, _now):
        present = self.keys(asked.identifier)
        if asked.session != present.number or asked.current is not present:
            return BAD_AUTH
        if any(version.body is not DELETED and version.body.keys is not present for version in self.items_of(asked.identifier)):
            return Refusal(409, "rekey-running")
        if asked.keys in self.accounts[asked.identifier]:
            return Refusal(409, "nonce-used")
        self.report.say("change %s set %d" % (asked.identifier, present.number + 1))
        return self.begin(asked.keys)

    def items_of(self, identifier):
        """The last versions of an account by rising stamp."""
        found = [version for uuid, version in self.versions.items() if self.owners[uuid] == identifier]
        return sorted(found, key=lambda version: version.stamp)

    def stamp_in(self, identifier, uuid):
        """The stamp of the last version that the account has of an item, or None."""
        return self.versions[uuid].stamp if self.owners.get(uuid) == identifier else None

    def page(self, asked):
        """What is given of the versions that the device hasn't had, and whether some are left."""
        above = next((stamp for stamp in (asked.cursor, asked.sync_token) if stamp is not None), 0)
        first = asked.cursor is None and asked.sync_token is None
        found = [version for version in self.items_of(asked.identifier) if version.stamp > above]
        found = [version for version in found if not (first and version.body is DELETED)]
        size = count = 0
        for version in found[:MOST_ITEMS]:
            size += version.body.size
            if count > 0 and size > MOST_BYTES:
                break
            count += 1
        return found[:count], count < len(found)

    def sync(self, asked, now):
        if asked.session != self.keys(asked.identifier).number:
            return BAD_AUTH
        page, left = self.page(asked)
        taken = self.take(asked, now)
        if taken is None:
            return Refusal(409, "stamps-used")
        saved, conflicts = taken
        if left:
            return Synced(saved, conflicts, page, page[-1].stamp, page[-1].stamp)
        own = self.items_of(asked.identifier)
        return Synced(saved, conflicts, page, None, own[-1].stamp if own else 0)

    def take(self, asked, now):
        """Takes the items that came: the versions that are saved, and the conflicts; or None where stamps are used up, and then
        nothing is taken."""
        before = self.last, dict(self.owners), dict(self.versions)
        saved, conflicts, moves, size = [], [], [], 0
        for item in asked.items:
            if size > MOST_BYTES:
                break
            stored = self.versions.get(item.uuid)
            if self.owners.get(item.uuid, asked.identifier) != asked.identifier:
                conflicts.append(Foreign(item.uuid))
            elif stored is not None and item.body is stored.body:
                saved.append(stored)
            elif stored is not None and item.stamp != stored.stamp:
                conflicts.append(stored)
                size += stored.body.size
            else:
                stamp = max(now, self.last + 1)
                if stamp > LAST_STAMP:
                    self.last, self.owners, self.versions = before
                    return None
                self.last = stamp
                self.owners[item.uuid] = asked.identifier
                self.versions[item.uuid] = Version(item.uuid, stamp, item.body)
                saved.append(self.versions[item.uuid])
                moves.append(self.move(asked.identifier, item, stamp))
        for move in moves:
            self.report.say(move)
        return saved, conflicts

    def move(self, identifier, item, stamp):
        under = "deleted" if item.body is DELETED else "set %d" % self.keys(identifier).number
        return "%s %s @%d %s" % ("rewrap" if item.again else "accept", self.report.label(item.uuid), stamp, under)

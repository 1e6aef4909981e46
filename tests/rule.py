"""The server's rules, by docs/SERVER.md and the messages of docs/FORMATS.md: what a server answers to a request, and
which rows it changes. Nothing here calls the program under test.
"""

import base64
import hashlib
import hmac
import json
import re
import struct
import urllib.parse

MOST_ACCOUNTS = 1_000_000
MOST_BYTES = 4_194_304
MOST_ITEMS = 500
MOST_STRING = 1_048_576
LAST_STAMP = 253402300799999999
ROUTES = ["register", "params", "sign_in", "change_pw", "sync"]

FORM = re.compile(
    r"003:[0-9a-f]{64}:([0-9a-f]{8}-[0-9a-f]{4}-[0-9a-f]{4}-[0-9a-f]{4}-[0-9a-f]{12}):[0-9a-f]{32}:([A-Za-z0-9+/=]*):([A-Za-z0-9+/=]*)"
)


def base64_of(text):
    """The bytes of the one spelling of a base64 text, or None."""
    try:
        data = base64.b64decode(text, validate=True)
    except ValueError:
        return None
    return data if base64.b64encode(data).decode() == text else None


def read_string(text):
    """The uuid and the parameters of a 003 string, or None."""
    found = FORM.fullmatch(text)
    if found is None:
        return None
    uuid, ciphertext, part = found.groups()
    data, params = base64_of(ciphertext), base64_of(part)
    if data is None or not data or len(data) % 16 or params is None:
        return None
    try:
        members = json.loads(params)
    except ValueError:
        return None
    if not isinstance(members, dict) or members.get("version") != "003":
        return None
    return uuid, (members.get("identifier"), members.get("pw_cost"), members.get("pw_nonce"))


def stamp_text(stamp):
    """A stamp's text, by the calendar of 400 years."""
    days, micros = divmod(stamp, 86_400_000_000)
    year = 1970
    cycles, days = divmod(days, 146_097)
    year += 400 * cycles
    while True:
        length = 366 if year % 4 == 0 and (year % 100 or year % 400 == 0) else 365
        if days < length:
            break
        days -= length
        year += 1
    months = [31, 28 + length - 365, 31, 30, 31, 30, 31, 31, 30, 31, 30, 31]
    month = 0
    while days >= months[month]:
        days -= months[month]
        month += 1
    seconds, micros = divmod(micros, 1_000_000)
    clock = "%02d:%02d:%02d.%06d" % (seconds // 3600, seconds // 60 % 60, seconds % 60, micros)
    return "%04d-%02d-%02dT%sZ" % (year, month + 1, days + 1, clock)


def token_text(stamp):
    return base64.b64encode(b"2:%d" % stamp).decode()


def read_token(text):
    """The stamp of a token, or None."""
    data = base64_of(text)
    if data is None or re.fullmatch(rb"2:(0|[1-9][0-9]*)", data) is None:
        return None
    stamp = int(data[2:])
    return stamp if stamp <= LAST_STAMP else None


def account_uuid(number):
    return "00000000-0000-8000-8000-%012x" % number


class Refusal(Exception):
    def __init__(self, status, tag, **kept):
        super().__init__(tag)
        self.status = status
        self.error = {"tag": tag, **kept}


class Item:
    """A stored item."""

    def __init__(self, account, kind, created, updated, deleted, content, enc):
        self.account, self.kind, self.created, self.updated = account, kind, created, updated
        self.deleted, self.content, self.enc = deleted, content, enc

    def weight(self):
        return len(self.content.encode()) + len(self.enc.encode())

    def given(self, uuid):
        return {
            "content": None if self.deleted else self.content,
            "content_type": self.kind,
            "created_at": stamp_text(self.created),
            "deleted": self.deleted,
            "enc_item_key": None if self.deleted else self.enc,
            "updated_at": stamp_text(self.updated),
            "uuid": uuid,
        }


def sent_item(members):
    """An item of a request as it is read: uuid, type, version known, whether it is deleted, and its strings."""
    deleted = bool(members.get("deleted"))
    return {
        "uuid": members["uuid"],
        "kind": members.get("content_type") or "",
        "updated_at": members.get("updated_at"),
        "deleted": deleted,
        "content": "" if deleted else members.get("content") or "",
        "enc": "" if deleted else members.get("enc_item_key") or "",
    }


def unsaved(item):
    deleted = item["deleted"]
    return {
        "content": None if deleted else item["content"],
        "content_type": item["kind"],
        "created_at": None,
        "deleted": deleted,
        "enc_item_key": None if deleted else item["enc"],
        "updated_at": item["updated_at"],
        "uuid": item["uuid"],
    }


# ---- rows, by docs/FORMATS.md


def counted(data):
    return struct.pack(">I", len(data)) + data


def put(kind, key, value):
    return bytes((1, kind)) + counted(key) + counted(value)


class Server:
    """The rows of a server, and its rules."""

    def __init__(self, secret, last=0):
        self.secret, self.last = secret, last
        self.accounts = []
        self.items = {}

    def store_row(self):
        return put(1, b"", self.secret + struct.pack(">QQ", self.last, len(self.accounts)))

    def account_row(self, number):
        account = self.accounts[number - 1]
        value = counted(account["identifier"].encode()) + struct.pack(">Q", len(account["params"])) + account["check"]
        return put(2, struct.pack(">Q", number), value)

    def generation_row(self, number, generation):
        cost, nonce = self.accounts[number - 1]["params"][generation - 1]
        return put(3, struct.pack(">QQ", number, generation), struct.pack(">I", cost) + counted(nonce.encode()))

    def item_row(self, uuid):
        item = self.items[uuid]
        value = struct.pack(">Q", item.account) + counted(item.kind.encode()) + struct.pack(">QQB", item.created, item.updated, item.deleted)
        value += counted(item.content.encode()) + counted(item.enc.encode())
        return put(4, bytes.fromhex(uuid.replace("-", "")), value)

    def token(self, number):
        uuid = account_uuid(number)
        signed = "%s:%d" % (uuid, len(self.accounts[number - 1]["params"]))
        return uuid + "." + hmac.new(self.secret, signed.encode(), hashlib.sha256).hexdigest()

    def session(self, token):
        for number in range(1, len(self.accounts) + 1):
            if self.token(number) == token:
                return number
        raise Refusal(401, "bad-auth")

    def named(self, identifier):
        for number, account in enumerate(self.accounts, 1):
            if account["identifier"] == identifier:
                return number
        return None

    def present(self, number):
        account = self.accounts[number - 1]
        return (account["identifier"], *account["params"][-1])

    def handle(self, route, token, text, now):
        """Status, answer's text and the payload of the changes. The changes are made."""
        before = self.last, dict(self.items)
        try:
            changes, answer = getattr(self, route)(token, text, now)
            return 200, written(answer), changes
        except Refusal as refusal:
            self.last, self.items = before
            return refusal.status, written({"error": refusal.error}), b""

    def admitted(self, number):
        identifier = self.accounts[number - 1]["identifier"]
        return {"token": self.token(number), "user": {"email": identifier, "uuid": account_uuid(number)}}

    def register(self, _token, text, _now):
        asked = json.loads(text)
        if self.named(asked["email"]):
            raise Refusal(409, "taken")
        check = hashlib.sha256(asked["password"].encode()).digest()
        self.accounts.append({"identifier": asked["email"], "check": check, "params": [(asked["pw_cost"], asked["pw_nonce"])]})
        number = len(self.accounts)
        changes = self.account_row(number) + self.generation_row(number, 1) + self.store_row()
        return changes, self.admitted(number)

    def params(self, _token, text, _now):
        number = self.named(dict(urllib.parse.parse_qsl(text))["email"])
        if number is None:
            raise Refusal(404, "unknown")
        identifier, cost, nonce = self.present(number)
        return b"", {"identifier": identifier, "pw_cost": cost, "pw_nonce": nonce, "version": "003"}

    def sign_in(self, _token, text, _now):
        asked = json.loads(text)
        number = self.named(asked["email"])
        if number is None:
            raise Refusal(404, "unknown")
        if hashlib.sha256(asked["password"].encode()).digest() != self.accounts[number - 1]["check"]:
            raise Refusal(401, "bad-auth")
        return b"", self.admitted(number)

    def change_pw(self, token, text, _now):
        asked = json.loads(text)
        number = self.session(token)
        account = self.accounts[number - 1]
        if hashlib.sha256(asked["current_password"].encode()).digest() != account["check"]:
            raise Refusal(401, "bad-auth")
        behind = [uuid for uuid, item in self.items.items() if item.account == number and not item.deleted and self.is_behind(item)]
        if behind:
            raise Refusal(409, "rekey-running", uuid=min(behind))
        if any(nonce == asked["pw_nonce"] for _, nonce in account["params"]):
            raise Refusal(409, "nonce-used")
        account["params"].append((asked["pw_cost"], asked["pw_nonce"]))
        account["check"] = hashlib.sha256(asked["new_password"].encode()).digest()
        return self.account_row(number) + self.generation_row(number, len(account["params"])), self.admitted(number)

    def is_behind(self, item):
        present = self.present(item.account)
        return any((read_string(text) or (None, None))[1] != present for text in (item.content, item.enc))

    def sync(self, token, text, now):
        asked = json.loads(text)
        number = self.session(token)
        stamps = {}
        for name in ("sync_token", "cursor_token"):
            given = asked.get(name)
            stamps[name] = None if given is None else read_token(given)
            if given is not None and stamps[name] is None:
                raise Refusal(400, "bad-token", name=name)
        items = [sent_item(members) for members in asked["items"]]
        if len(items) > MOST_ITEMS:
            raise Refusal(413, "wide", number=len(items))
        for item in items:
            for string in (item["content"], item["enc"]):
                if len(string.encode()) > MOST_STRING:
                    raise Refusal(413, "long", number=len(string.encode()), uuid=item["uuid"])
        page, left = self.page(number, stamps, asked.get("limit") or 500)
        retrieved = [item.given(uuid) for uuid, item in page]
        last, before = page[-1][1].updated if page else None, self.last
        conflicts, saved, accepted = self.take(number, items, now, before)
        changes = b"".join(accepted) + (self.store_row() if accepted else b"")
        own = [item.updated for item in self.items.values() if item.account == number]
        sync_token = token_text(last if left else max(own, default=0))
        cursor = sync_token if left else None
        answer = {"conflicts": conflicts, "cursor_token": cursor, "retrieved_items": retrieved, "saved_items": saved, "sync_token": sync_token}
        return changes, answer

    def page(self, number, stamps, limit):
        above = stamps["cursor_token"]
        if above is None:
            above = stamps["sync_token"] or 0
        first = stamps["cursor_token"] is None and stamps["sync_token"] is None
        found = [
            (uuid, item)
            for uuid, item in self.items.items()
            if item.account == number and item.updated > above and not (first and item.deleted)
        ]
        found.sort(key=lambda each: each[1].updated)
        count = size = 0
        while count < len(found):
            size += found[count][1].weight()
            if count and (count >= limit or size > MOST_BYTES):
                break
            count += 1
        return found[:count], found[count:]

    def take(self, number, items, now, before):
        conflicts, saved, accepted, size = [], [], [], 0
        for item in items:
            if size > MOST_BYTES:
                break
            uuid = item["uuid"]
            stored = self.items.get(uuid)
            if stored is not None and stored.account != number:
                conflicts.append({"type": "uuid_conflict", "unsaved_item": unsaved(item)})
            elif stored is not None and self.same(stored, item):
                saved.append(stored.given(uuid))
            elif stored is not None and item["updated_at"] != stamp_text(stored.updated):
                conflicts.append({"type": "sync_conflict", "server_item": stored.given(uuid)})
                size += stored.weight()
            elif not item["deleted"] and any(read_string(item[name]) != (uuid, self.present(number)) for name in ("content", "enc")):
                conflicts.append({"type": "content_error", "unsaved_item": unsaved(item)})
            else:
                stamp = max(now, self.last + 1)
                if stamp > LAST_STAMP:
                    raise Refusal(409, "stamps-used", number=before)
                self.last = stamp
                created = stamp if stored is None else stored.created
                self.items[uuid] = Item(number, item["kind"], created, stamp, item["deleted"], item["content"], item["enc"])
                saved.append(self.items[uuid].given(uuid))
                accepted.append(self.item_row(uuid))
        return conflicts, saved, accepted

    @staticmethod
    def same(stored, item):
        if stored.deleted or item["deleted"]:
            return stored.deleted and item["deleted"]
        return (stored.kind, stored.content, stored.enc) == (item["kind"], item["content"], item["enc"])


def written(answer):
    return json.dumps(answer, separators=(",", ":"), ensure_ascii=False, sort_keys=True)

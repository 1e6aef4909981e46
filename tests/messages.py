"""The messages of the sync API by another implementation: what docs/FORMATS.md ('Messages') says of them, over Python's
`json`. Nothing here calls the program under test.

A message's text is told as one line: the text that is written for what it says, or its refusal, `!json`,
`!member NAME` or `!limit NAME NUMBER`.
"""

import base64
import datetime
import json
import re
import urllib.parse

ROUTES = ("register", "params", "sign_in", "change_pw", "sync")
LAST_STAMP = 253402300799999999
DEEPEST = 127
LARGEST_NUMBER = 18446744073709551615

HASH = re.compile(r"[0-9a-f]{64}")
UUID = re.compile(r"[0-9a-f]{8}-[0-9a-f]{4}-[0-9a-f]{4}-[0-9a-f]{4}-[0-9a-f]{12}")
STAMP = re.compile(r"(\d{4})-(\d\d)-(\d\d)T(\d\d):(\d\d):(\d\d)\.(\d{6})Z", re.ASCII)
TOKEN = re.compile(rb"2:(0|[1-9][0-9]{0,17})")
HALF = re.compile("[\ud800-\udfff]")
# A string of JSON, or a bracket outside of one.
BRACKET = re.compile(r'"(?:[^"\\]|\\.)*"|[\[\]{}]', re.DOTALL)


class Refused(Exception):
    """The refusal of a text, as its line."""


# ---- JSON


class Other(float):
    """A number that is no whole one of 0 to 2^64 - 1 in plain digits."""


def whole_number(digits):
    """A number without fraction or exponent. A sign makes another of it, -0 too."""
    if digits.startswith("-") or len(digits) > 20 or int(digits) > LARGEST_NUMBER:
        return other_number(digits)
    return int(digits)


def other_number(digits):
    number = float(digits)
    if number in (float("inf"), float("-inf")):
        raise ValueError("too large for a double")
    return Other(number)


def no_constant(word):
    raise ValueError(word)


def depth(text):
    deepest = now = 0
    for sign in BRACKET.findall(text):
        if sign in "[{":
            now += 1
            deepest = max(deepest, now)
        elif sign in "]}":
            now -= 1
    return deepest


def has_lone_half(value):
    """Whether a string, here or in a list, has one half of a surrogate pair without the other."""
    if isinstance(value, list):
        return any(has_lone_half(item) for item in value)
    return isinstance(value, str) and HALF.search(value) is not None


def members_of(pairs):
    """An object. Of members of one name the last counts."""
    if any(has_lone_half(name) or has_lone_half(value) for name, value in pairs):
        raise ValueError("half of a surrogate pair")
    return dict(pairs)


def read_object(data):
    """The members of a text's object."""
    try:
        text = data.decode()
        if depth(text) > DEEPEST:
            raise ValueError("too deep")
        words = {"parse_int": whole_number, "parse_float": other_number, "parse_constant": no_constant}
        value = json.loads(text, object_pairs_hook=members_of, **words)
    except ValueError as fault:
        raise Refused("!json") from fault
    if not isinstance(value, dict):
        raise Refused("!json")
    return value


def written(value):
    """Compact, the members by alphabet."""
    return json.dumps(value, separators=(",", ":"), ensure_ascii=False, sort_keys=True).encode()


# ---- members


def member(name, found):
    if found is None:
        raise Refused("!member " + name)
    return found


def is_number(value):
    return type(value) is int


def text_of(body, name):
    value = body.get(name)
    return value if isinstance(value, str) else None


def sized_text(body, name, least, most):
    value = text_of(body, name)
    return value if value is not None and least <= len(value.encode()) <= most else None


def matching(body, name, form):
    value = text_of(body, name)
    return value if value is not None and form.fullmatch(value) else None


def cost_of(body):
    value = body.get("pw_cost")
    return value if is_number(value) and 1 <= value <= 4294967295 else None


def params_after(body):
    """Cost, nonce and version, which stand behind the others by alphabet."""
    cost = member("pw_cost", cost_of(body))
    nonce = member("pw_nonce", sized_text(body, "pw_nonce", 1, 256))
    if body.get("version") != "003":
        raise Refused("!member version")
    return {"pw_cost": cost, "pw_nonce": nonce, "version": "003"}


def optional_text(body, name):
    """A text, or nothing where it is null or left out."""
    value = body.get(name)
    if value is None or isinstance(value, str):
        return value
    raise Refused("!member " + name)


def text_or_empty(body, name):
    return optional_text(body, name) or ""


# ---- stamps and tokens


def stamp_of(text):
    """The stamp of a text, or None."""
    found = STAMP.fullmatch(text)
    if not found:
        return None
    parts = [int(part) for part in found.groups()]
    try:
        moment = datetime.datetime(*parts[:6])
    except ValueError:
        return None
    since = moment - datetime.datetime(1970, 1, 1)
    stamp = (since.days * 86400 + since.seconds) * 1000000 + parts[6]
    return stamp if since.days >= 0 else None


def stamp_text(stamp):
    moment = datetime.datetime(1970, 1, 1) + datetime.timedelta(microseconds=stamp)
    return moment.strftime("%Y-%m-%dT%H:%M:%S.%fZ")


def token_of(text):
    """The stamp of a token, or None."""
    try:
        data = base64.b64decode(text, validate=True)
    except ValueError:
        return None
    found = TOKEN.fullmatch(data)
    if not found or base64.b64encode(data) != text:
        return None
    stamp = int(found.group(1))
    return stamp if stamp <= LAST_STAMP else None


def token_text(stamp):
    return base64.b64encode(b"2:%d" % stamp)


# ---- items


def read_item(value, outer, stored):
    """What is written for an item. `stored` ones have stamps."""
    if not isinstance(value, dict):
        raise Refused("!member " + outer)
    deleted = value.get("deleted") is True
    item = {"deleted": deleted, "content": None, "enc_item_key": None, "created_at": None}
    if not deleted:
        item["content"] = text_or_empty(value, "content")
    item["content_type"] = text_or_empty(value, "content_type")
    if not (0 if deleted else 1) <= len(item["content_type"].encode()) <= 255:
        raise Refused("!member content_type")
    if stored:
        item["created_at"] = stamp_member(value, "created_at")
    if not isinstance(value.get("deleted"), (bool, type(None))):
        raise Refused("!member deleted")
    if not deleted:
        item["enc_item_key"] = text_or_empty(value, "enc_item_key")
    item["updated_at"] = stamp_member(value, "updated_at") if stored else optional_text(value, "updated_at")
    item["uuid"] = member("uuid", matching(value, "uuid", UUID))
    return item


def stamp_member(value, name):
    text = text_of(value, name)
    return member(name, text if text is not None and stamp_of(text) is not None else None)


def read_items(body, name, stored):
    values = body.get(name)
    if not isinstance(values, list):
        raise Refused("!member " + name)
    return [read_item(value, name, stored) for value in values]


# ---- requests


def read_registration(body):
    email = member("email", sized_text(body, "email", 1, 254))
    password = member("password", matching(body, "password", HASH))
    return {"email": email, "password": password, **params_after(body)}


def read_sign_in(body):
    email = member("email", sized_text(body, "email", 1, 254))
    return {"email": email, "password": member("password", matching(body, "password", HASH))}


def read_change(body):
    current = member("current_password", matching(body, "current_password", HASH))
    new = member("new_password", matching(body, "new_password", HASH))
    return {"current_password": current, "new_password": new, **params_after(body)}


def read_limit(body):
    value = body.get("limit")
    if value is None:
        return 500
    if is_number(value):
        if not 1 <= value <= 500:
            raise Refused("!limit limit %d" % value)
        return value
    raise Refused("!member limit")


def read_sync(body):
    if body.get("api") != "20190520":
        raise Refused("!member api")
    request = {"api": "20190520", "cursor_token": optional_text(body, "cursor_token")}
    request["items"] = read_items(body, "items", stored=False)
    request["limit"] = read_limit(body)
    request["sync_token"] = optional_text(body, "sync_token")
    return request


def read_query(query):
    """The first `email` of a query (URL Standard, 5.1), written again."""
    for pair in query.split(b"&"):
        name, _, value = (part.replace(b"+", b" ") for part in pair.partition(b"="))
        if pair and urllib.parse.unquote_to_bytes(name).decode(errors="replace") == "email":
            email = urllib.parse.unquote_to_bytes(value).decode(errors="replace").encode()
            if not 1 <= len(email) <= 254:
                break
            return b"email=" + urllib.parse.quote_plus(email, safe="*").replace("~", "%7E").encode()
    raise Refused("!member email")


BODIES = {"register": read_registration, "sign_in": read_sign_in, "change_pw": read_change, "sync": read_sync}


def request_line(route, text):
    try:
        if route == "params":
            return read_query(text)
        return written(BODIES[route](read_object(text)))
    except Refused as refusal:
        return str(refusal).encode()


# ---- answers


def read_account(body):
    token = sized_text(body, "token", 1, 1024)
    if token is None or not all("!" <= sign <= "~" for sign in token):
        raise Refused("!member token")
    user = body.get("user")
    if not isinstance(user, dict):
        raise Refused("!member user")
    email = member("email", sized_text(user, "email", 1, 254))
    return {"token": token, "user": {"email": email, "uuid": member("uuid", matching(user, "uuid", UUID))}}


def read_params(body):
    identifier = member("identifier", sized_text(body, "identifier", 1, 254))
    return {"identifier": identifier, **params_after(body)}


PLACES = {"sync_conflict": "server_item", "uuid_conflict": "unsaved_item", "content_error": "unsaved_item"}


def read_conflict(value):
    if not isinstance(value, dict):
        raise Refused("!member conflicts")
    kind = text_of(value, "type")
    if kind not in PLACES:
        raise Refused("!member type")
    place = PLACES[kind]
    if place not in value:
        raise Refused("!member " + place)
    return {"type": kind, place: read_item(value[place], place, stored=kind == "sync_conflict")}


def read_synced(body):
    conflicts = body.get("conflicts")
    if not isinstance(conflicts, list):
        raise Refused("!member conflicts")
    answer = {"conflicts": [read_conflict(value) for value in conflicts]}
    if "cursor_token" not in body:
        raise Refused("!member cursor_token")
    answer["cursor_token"] = optional_text(body, "cursor_token")
    answer["retrieved_items"] = read_items(body, "retrieved_items", stored=True)
    answer["saved_items"] = read_items(body, "saved_items", stored=True)
    answer["sync_token"] = member("sync_token", text_of(body, "sync_token"))
    return answer


def read_refusal(body):
    error = body.get("error")
    tag = text_of(error, "tag") if isinstance(error, dict) else None
    if tag is None:
        raise Refused("!member error")
    kept = {"tag": tag}
    uuid = matching(error, "uuid", UUID)
    if is_number(error.get("number")):
        kept["number"] = error["number"]
    if uuid is not None:
        kept["uuid"] = uuid
    if len(kept) == 1 and text_of(error, "name") is not None:
        kept["name"] = error["name"]
    return {"error": kept}


def answer_line(route, status, text):
    try:
        body = read_object(text)
        if status != 200:
            return written(read_refusal(body))
        if route == "params":
            return written(read_params(body))
        return written(read_synced(body) if route == "sync" else read_account(body))
    except Refused as refusal:
        return str(refusal).encode()

"""Requests and answers worked out by hand from docs/FORMATS.md ('Messages'): a route, of an answer also its status, the text, and
its line as `messages.py` tells it: the text that is written for what it says, or its refusal. SAME stands for the text itself.
"""

SAME = object()


def text(members):
    return "{" + ",".join('"%s":%s' % pair for pair in members.items()) + "}"


def form(members):
    """What spells an object of these members. Some may be given another value, as JSON text, or by None be left out."""
    return lambda **changes: text({name: value for name, value in {**members, **changes}.items() if value is not None})


def quoted(value):
    return '"%s"' % value


def nested(depth):
    return '{"a":' + "[" * depth + "]" * depth + "}"


UUID, OTHER = (quoted("00000000-0000-4000-8000-00000000000" + last) for last in "1a")
STAMP, FIRST_STAMP = quoted("2019-05-20T00:00:00.000000Z"), quoted("1970-01-01T00:00:00.000000Z")
ALL_A, DIGITS = quoted("a" * 64), quoted("0123456789abcdef" * 4)
PARAMS = {"pw_cost": "1", "pw_nonce": '"6e"', "version": '"003"'}

register = form({"email": '"alice"', "password": ALL_A, **PARAMS})
sign_in = form({"email": '"alice"', "password": ALL_A})
change = form({"current_password": ALL_A, "new_password": DIGITS, **PARAMS})
sync = form({"api": '"20190520"', "cursor_token": "null", "items": "[]", "limit": "500", "sync_token": "null"})
SENT = {"content": '""', "content_type": '"Note"', "created_at": "null", "deleted": "false", "enc_item_key": '""', "updated_at": "null", "uuid": UUID}
sent = form(SENT)
dropped = form({**SENT, "content": "null", "content_type": '""', "deleted": "true", "enc_item_key": "null"})
saved = form({**SENT, "content": '"x"', "created_at": FIRST_STAMP, "enc_item_key": '"y"', "updated_at": STAMP})
gone = form({**SENT, "content": "null", "created_at": FIRST_STAMP, "deleted": "true", "enc_item_key": "null", "updated_at": STAMP})
account = form({"token": '"t"', "user": text({"email": '"alice"', "uuid": UUID})})
params = form({"identifier": '"alice"', **PARAMS})
synced = form({"conflicts": "[]", "cursor_token": "null", "retrieved_items": "[]", "saved_items": "[]", "sync_token": '"MjowMA"'})


def items(*those):
    return sync(items="[%s]" % ",".join(those))


def met(*those, **changes):
    """An answer with these conflicts."""
    return synced(conflicts="[%s]" % ",".join(those), **changes)


def retrieved(*those):
    return synced(retrieved_items="[%s]" % ",".join(those))


def kept(*those):
    return synced(saved_items="[%s]" % ",".join(those))


def conflict(kind, **members):
    return text(dict(sorted({"type": quoted(kind), **members}.items())))


def error(**members):
    return text({"error": text(members)})


REGISTRATIONS = (
    (register(), SAME),
    ('{"version":"003","extra":[1,{"a":null}],"pw_nonce":"6e","pw_cost":1,"password":%s,"email":"alice"}' % ALL_A, register()),
    (' { "email" : "alice" , "password" : %s , "pw_cost" : 1 , "pw_nonce" : "6e" , "version" : "003" } ' % ALL_A, register()),
    (register().replace("{", '{"email":1,'), register()),
    (register().replace('"alice"', '"alice","email":1'), "!member email"),
    ("{}", "!member email"),
    (register(email="null"), "!member email"),
    (register(email='""'), "!member email"),
    (register(email=quoted("a" * 254)), SAME),
    (register(email=quoted("a" * 255)), "!member email"),
    (register(email=quoted("é" * 127)), SAME),
    (register(email=quoted("é" * 127 + "a")), "!member email"),
    (register(email=r'"\u00e9\u000a"'), register(email=r'"é\n"')),
    (register(password=None), "!member password"),
    (register(password="5"), "!member password"),
    (register(password=quoted("a" * 63)), "!member password"),
    (register(password=quoted("a" * 65)), "!member password"),
    (register(password=quoted("a" * 63 + "A")), "!member password"),
    (register(password=quoted("a" * 63 + "g")), "!member password"),
    (register(password=DIGITS), SAME),
    (register(pw_cost="0"), "!member pw_cost"),
    (register(pw_cost="-1"), "!member pw_cost"),
    (register(pw_cost="4294967295"), SAME),
    (register(pw_cost="4294967296"), "!member pw_cost"),
    (register(pw_cost="1.0"), "!member pw_cost"),
    (register(pw_cost="1e3"), "!member pw_cost"),
    (register(pw_cost='"1"'), "!member pw_cost"),
    (register(pw_nonce='""'), "!member pw_nonce"),
    (register(pw_nonce=quoted("f" * 256)), SAME),
    (register(pw_nonce=quoted("f" * 257)), "!member pw_nonce"),
    (register(version='"004"'), "!member version"),
    (register(version="3"), "!member version"),
    (register(version=None), "!member version"),
    (register(password="1", pw_cost="0", version="4"), "!member password"),
    (register(pw_nonce="1", version="4"), "!member pw_nonce"),
    ("", "!json"),
    ("[]", "!json"),
    ('"email"', "!json"),
    ("1", "!json"),
    ("null", "!json"),
    ('{"email":"alice"', "!json"),
    ('{"email":"alice",}', "!json"),
    ("{} {}", "!json"),
    ('{"email":1e400}', "!json"),
    (r'{"email":"\ud800"}', "!json"),
    (nested(126), "!member email"),
    (nested(127), "!json"),
)

SIGN_INS = (
    (sign_in(), SAME),
    (sign_in(pw_cost="0"), sign_in()),
    (sign_in(email=None), "!member email"),
    (sign_in(password=None), "!member password"),
)

QUERIES = (
    ("email=alice", SAME),
    ("x=1&email=a%40b.c&email=z", "email=a%40b.c"),
    ("email=a+b", SAME),
    ("email=a%20b", "email=a+b"),
    ("&&email=alice", "email=alice"),
    ("e%6Dail=alice", "email=alice"),
    ("email=" + "a" * 254, SAME),
    ("email=" + "a" * 255, "!member email"),
    ("", "!member email"),
    ("email", "!member email"),
    ("email=", "!member email"),
    ("email=&email=alice", "!member email"),
    ("Email=alice", "!member email"),
)

CHANGES = (
    (change(), SAME),
    ("{}", "!member current_password"),
    (change(new_password=None), "!member new_password"),
    (change(new_password="1", pw_cost="0"), "!member new_password"),
    (change(pw_cost="0", pw_nonce="0"), "!member pw_cost"),
    (change(pw_nonce="0", version="0"), "!member pw_nonce"),
    (change(version='"002"'), "!member version"),
)

SYNCS = (
    ('{"api":"20190520","items":[]}', sync()),
    (sync(), SAME),
    ('{"api":"20190520","items":[],"limit":501}', "!limit limit 501"),
    ('{"api":"20190520"}', "!member items"),
    (sync(limit="null"), sync()),
    (sync(limit="1"), SAME),
    (sync(limit="0"), "!limit limit 0"),
    (sync(limit="18446744073709551615"), "!limit limit 18446744073709551615"),
    (sync(limit="18446744073709551616"), "!member limit"),
    (sync(limit="-1"), "!member limit"),
    (sync(limit="1.0"), "!member limit"),
    (sync(limit='"1"'), "!member limit"),
    (sync(cursor_token='"any text"', sync_token='"Mjox"'), SAME),
    (sync(sync_token="5"), "!member sync_token"),
    (sync(cursor_token="{}", items="5", limit="0"), "!member cursor_token"),
    (sync(items="5", limit="0", sync_token="5"), "!member items"),
    (sync(limit="0", sync_token="5"), "!limit limit 0"),
    (sync(api='"20200115"'), "!member api"),
    (sync(api="20190520"), "!member api"),
    ('{"items":5}', "!member api"),
    (sync(items="null"), "!member items"),
    (sync(items="{}"), "!member items"),
    (items("5"), "!member items"),
    (items("[]"), "!member items"),
)

ITEMS = (
    (items('{"content_type":"Note","uuid":%s}' % UUID), items(sent())),
    (items(sent(content='"003:a"', enc_item_key='"003:b"', updated_at='"any text"')), SAME),
    (items(sent(created_at="5")), items(sent())),
    (items(sent(content="null", deleted="null", enc_item_key="null")), items(sent())),
    (items('{"deleted":true,"uuid":%s}' % UUID), items(dropped())),
    (items(dropped(content="7", content_type="null", enc_item_key="[]")), items(dropped())),
    (items(dropped(content_type=quoted("a" * 255), updated_at='"x"')), SAME),
    (items("{}"), "!member content_type"),
    (items('{"content_type":"Note"}'), "!member uuid"),
    (items(sent(content="7", content_type="7", deleted="1")), "!member content"),
    (items(sent(content_type="7", deleted="1")), "!member content_type"),
    (items(sent(content_type='""')), "!member content_type"),
    (items(sent(content_type=quoted("a" * 256))), "!member content_type"),
    (items(sent(content_type=quoted("a" * 256), deleted="true")), "!member content_type"),
    (items(sent(deleted="1", enc_item_key="7")), "!member deleted"),
    (items(sent(deleted='"true"')), "!member deleted"),
    (items(sent(enc_item_key="7", updated_at="7")), "!member enc_item_key"),
    (items(sent(updated_at="7", uuid="7")), "!member updated_at"),
    (items(sent(uuid=OTHER.replace("a", "A"))), "!member uuid"),
    (items(sent(uuid=OTHER)), SAME),
    (items(sent(uuid=UUID.replace("-", ""))), "!member uuid"),
    (items(dropped(uuid="null")), "!member uuid"),
    (items(sent(), sent(uuid=OTHER), dropped()), SAME),
    (items(sent(), "{}"), "!member content_type"),
    (items(sent(uuid="1"), sent(content="1")), "!member uuid"),
    (items(sent(), "5"), "!member items"),
)

ACCOUNTS = (
    ('{"user":{"uuid":%s,"x":1,"email":"alice"},"token":"t"}' % UUID, account()),
    ("{}", "!member token"),
    (account(token='""'), "!member token"),
    (account(token=quoted("t" * 1024)), SAME),
    (account(token=quoted("t" * 1025)), "!member token"),
    (account(token='"a b"'), "!member token"),
    (account(token='"é"'), "!member token"),
    (account(token='"!~"'), SAME),
    (account(token=r'"\u007f"'), "!member token"),
    (account(user=None), "!member user"),
    (account(user="null"), "!member user"),
    (account(user="[]"), "!member user"),
    (account(user="{}"), "!member email"),
    (account(user='{"email":""}'), "!member email"),
    (account(user='{"email":"alice"}'), "!member uuid"),
    (account(user='{"email":"alice","uuid":"1"}'), "!member uuid"),
    ("[]", "!json"),
    ("", "!json"),
)

PARAMETERS = (
    (params(), SAME),
    ("{}", "!member identifier"),
    (params(identifier="5", version="3"), "!member identifier"),
    (params(pw_cost="0", pw_nonce="6"), "!member pw_cost"),
    (params(pw_nonce='""'), "!member pw_nonce"),
    (params(version='"002"'), "!member version"),
)

SYNCED = (
    (synced(), SAME),
    (synced(cursor_token='"Mjox"', sync_token='"any text"'), SAME),
    ("{}", "!member conflicts"),
    (synced(conflicts="{}"), "!member conflicts"),
    (synced(cursor_token=None), "!member cursor_token"),
    (synced(cursor_token="5", retrieved_items="5"), "!member cursor_token"),
    (synced(retrieved_items="5", saved_items="5"), "!member retrieved_items"),
    (synced(retrieved_items=None), "!member retrieved_items"),
    (synced(saved_items="null", sync_token="5"), "!member saved_items"),
    (synced(sync_token="null"), "!member sync_token"),
    (synced(retrieved_items="[5]"), "!member retrieved_items"),
    (synced(saved_items='["x"]'), "!member saved_items"),
)

STORED = (
    (synced(retrieved_items="[%s,%s]" % (saved(), gone()), saved_items="[%s]" % saved(uuid=OTHER)), SAME),
    (retrieved(saved(created_at="null")), "!member created_at"),
    (retrieved(saved(created_at="5")), "!member created_at"),
    (retrieved(saved(created_at='"2019-02-29T00:00:00.000000Z"')), "!member created_at"),
    (retrieved(saved(updated_at="null")), "!member updated_at"),
    (retrieved(saved(updated_at='"yesterday"')), "!member updated_at"),
    (kept(saved(content="5", created_at="5")), "!member content"),
    (kept(saved(created_at="5", deleted="5")), "!member created_at"),
    (kept(gone(created_at="5", updated_at="5")), "!member created_at"),
    (kept(gone(updated_at="5", uuid="5")), "!member updated_at"),
    (kept(saved(updated_at="5", uuid="5")), "!member updated_at"),
    (synced(retrieved_items="[%s,%s]" % (saved(), saved(uuid="5")), saved_items="[5]"), "!member uuid"),
)

CONFLICTS = (
    (
        met(
            conflict("sync_conflict", server_item=saved()),
            conflict("uuid_conflict", unsaved_item=sent()),
            conflict("content_error", unsaved_item=dropped()),
        ),
        SAME,
    ),
    (met(conflict("uuid_conflict", unsaved_item=sent(created_at="7"))), met(conflict("uuid_conflict", unsaved_item=sent()))),
    (met("5"), "!member conflicts"),
    (met("{}"), "!member type"),
    (met(conflict("x")), "!member type"),
    (met(conflict("sync-conflict", server_item="5")), "!member type"),
    (met(conflict("sync_conflict")), "!member server_item"),
    (met(conflict("sync_conflict", server_item="5")), "!member server_item"),
    (met(conflict("sync_conflict", server_item=sent())), "!member created_at"),
    (met(conflict("uuid_conflict")), "!member unsaved_item"),
    (met(conflict("content_error", unsaved_item="[]")), "!member unsaved_item"),
    (met(conflict("content_error", unsaved_item="{}")), "!member content_type"),
    (met(conflict("uuid_conflict", unsaved_item=sent()), conflict("x"), cursor_token="5"), "!member type"),
)

REFUSALS = (
    ("sync", 409, error(tag='"taken"'), SAME),
    ("register", 404, error(tag='"no-route"'), SAME),
    ("sync", 400, error(number="501", tag='"limit"'), SAME),
    ("sync", 400, error(name='"items"', tag='"member"'), SAME),
    ("sync", 409, error(tag='"rekey-running"', uuid=UUID), SAME),
    ("sync", 413, error(number="1048577", tag='"long"', uuid=UUID), SAME),
    ("sync", 413, error(name='"x"', number="5", tag='""', uuid=UUID), error(number="5", tag='""', uuid=UUID)),
    ("sync", 413, error(name='"x"', number="5", tag='"t"', uuid='"x"'), error(number="5", tag='"t"')),
    ("sync", 413, error(name='"x"', number="5.5", tag='"t"', uuid=UUID), error(tag='"t"', uuid=UUID)),
    ("sync", 413, error(name='"x"', number="-5", tag='"t"', uuid="5"), error(name='"x"', tag='"t"')),
    ("sync", 413, error(name="5", tag='"t"'), error(tag='"t"')),
    ("sync", 500, "{}", "!member error"),
    ("sync", 500, '{"error":"x"}', "!member error"),
    ("sync", 500, error(tag="5", number="5"), "!member error"),
    ("sync", 201, synced(), "!member error"),
    ("sync", 500, "", "!json"),
    ("sync", 500, "[]", "!json"),
)


def lines(*tables):
    """The rows of tables, each of one route and, of answers, one status, in bytes and with the texts for which SAME stands."""
    for *asked, rows in tables:
        for given, line in rows:
            yield (*asked, given.encode(), (given if line is SAME else line).encode())


REQUESTS = tuple(
    lines(
        ("register", REGISTRATIONS),
        ("sign_in", SIGN_INS),
        ("params", QUERIES),
        ("change_pw", CHANGES),
        ("sync", SYNCS + ITEMS),
    )
)
ANSWERS = tuple(
    lines(
        *((route, 200, ((account(), SAME),)) for route in ("register", "sign_in", "change_pw")),
        ("register", 200, ACCOUNTS),
        ("params", 200, PARAMETERS),
        ("sync", 200, SYNCED + STORED + CONFLICTS),
        *((route, status, ((given, line),)) for route, status, given, line in REFUSALS),
    )
)

# The first and the last stamp, a leap day of a year of four hundred, and another, with their texts.
STAMPS = (
    (0, "1970-01-01T00:00:00.000000Z"),
    (951868799999999, "2000-02-29T23:59:59.999999Z"),
    (1558310400000000, "2019-05-20T00:00:00.000000Z"),
    (253402300799999999, "9999-12-31T23:59:59.999999Z"),
)
NO_STAMPS = (
    "",
    "1969-12-31T23:59:59.999999Z",
    "2001-02-29T00:00:00.000000Z",
    "2019-00-20T00:00:00.000000Z",
    "2019-05-00T00:00:00.000000Z",
    "2019-05-20 00:00:00.000000Z",
    "2019-05-20T00:00:00.000000",
    "2019-05-20T00:00:00.000000+00:00",
    "2019-05-20T00:00:00.000000Z ",
    "2019-05-20T00:00:00.000000z",
    "2019-05-20T00:00:00.0000000Z",
    "2019-05-20T00:00:00.00000Z",
    "2019-05-20T00:00:00Z",
    "2019-05-20T00:00:60.000000Z",
    "2019-05-20T00:60:00.000000Z",
    "2019-05-20T24:00:00.000000Z",
    "2019-05-20t00:00:00.000000Z",
    "2019-05-+1T00:00:00.000000Z",
    "2019-13-20T00:00:00.000000Z",
    "20190520T000000.000000Z",
)
TOKENS = ((0, b"Mjow"), (1, b"Mjox"), (1000, b"MjoxMDAw"), (253402300799999999, b"MjoyNTM0MDIzMDA3OTk5OTk5OTk="))
# The decimals in turn: none, 1 behind another sign, 0 with padding, 01, the one past the last, 1 with a blank behind it and in
# front, +1, and 19 and 22 digits.
NO_TOKENS = (
    b"",
    b"Mjo=",
    b"Mzox",
    b"Mjow=",
    b"MjowMQ==",
    b"MjoyNTM0MDIzMDA4MDAwMDAwMDA=",
    b"Mjox ",
    b" Mjox",
    b"MjorMQ==",
    b"MjoxMDAwMDAwMDAwMDAwMDAwMDAw",
    b"MjoxMDAwMDAwMDAwMDAwMDAwMDAwMDAw",
)

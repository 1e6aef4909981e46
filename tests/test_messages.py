"""The proved readers and writers of messages, stamps and tokens beside those of messages.py: on the rows that were worked out by
hand, on 100,000 messages that were changed at random, and on stamps and tokens.

No command reads a message, so the proved functions are called in `crates/sn_bench` as a shared library. `tests/run` builds
it and names it in SN_LIBRARY. The messages are the same in each run; another SN_SEED gives others.
"""

import ctypes
import json
import os
import random
import unittest
from collections import Counter

import message_rows
import messages

LIBRARY = os.environ.get("SN_LIBRARY")
SEED = int(os.environ.get("SN_SEED") or 20190520)
MESSAGES = 100000
STAMPS = 20000
NONE = 2**64 - 1
STATUSES = [200, 200, 200, 200, 200, 400, 401, 404, 409, 413, 503, 0, 199, 201, 65535]


def given(data):
    return data, ctypes.c_size_t(len(data))


class Proved:
    """The functions of the library. A line is None where it answers that there is none."""

    def __init__(self, path):
        self.library = ctypes.CDLL(path)
        for name in ("request", "answer", "stamp", "token_text", "token"):
            getattr(self.library, "sn_bench_" + name).restype = ctypes.c_uint64
        self.library.sn_bench_stamp_text.restype = ctypes.c_bool
        self.room = ctypes.create_string_buffer(1 << 16)

    def line(self, function, *words):
        count = function(*words, self.room, ctypes.c_size_t(len(self.room)))
        return None if count == NONE else self.room[:count]

    def request_line(self, route, text):
        number = ctypes.c_uint8(messages.ROUTES.index(route))
        return self.line(self.library.sn_bench_request, number, *given(b"token"), *given(text))

    def answer_line(self, route, status, text):
        number = ctypes.c_uint8(messages.ROUTES.index(route))
        return self.line(self.library.sn_bench_answer, number, ctypes.c_uint16(status), *given(text))

    def stamp_text(self, stamp):
        text = ctypes.create_string_buffer(27)
        return text.raw.decode() if self.library.sn_bench_stamp_text(ctypes.c_uint64(stamp), text) else None

    def stamp(self, text):
        stamp = self.library.sn_bench_stamp(*given(text))
        return None if stamp == NONE else stamp

    def token_text(self, stamp):
        return self.line(self.library.sn_bench_token_text, ctypes.c_uint64(stamp))

    def token(self, text):
        stamp = self.library.sn_bench_token(*given(text))
        return None if stamp == NONE else stamp


# ---- messages in form. An object is a list of pairs, so that a name can stand twice; a Raw is written as it is.


class Raw(str):
    """A value's text."""


class Object(list):
    """The members of an object, as pairs of name and value."""


ALPHABET = ["a", "b", "Z", "0", " ", "\"", "\\", "/", "\n", "\t", "\b", "\x1f", "\x7f", "é", "ß", "日", "😀", "\u2028", "\ufffd"]
TEXTS = ["", "alice", "alice@example.org", "003", "20190520", "Note", "sync_conflict", "uuid_conflict", "content_error"]
PLAIN = "abcdefghijklmnopqrstuvwxyz" * 10
NUMBERS = """0 1 2 499 500 501 -0 -1 1.0 1e0 1E+2 0.5 -0.0 255 256 4294967294 4294967295 4294967296 9223372036854775807
9223372036854775808 18446744073709551615 18446744073709551616 99999999999999999999 100000000000000000000000
1.7976931348623157e308 1.7976931348623159e308 1e309 -1e309 1e400 1e-400 0e999 -9223372036854775808
-9223372036854775809 01 +1 1. .5 1e 0x1 NaN Infinity -Infinity""".split()
WORDS = ["null", "true", "false", "True", "[]", "{}", "[null]", "{\"\":0}", "\"\"", "\"\\ud83d\\ude00\"", "\"\\ud83d\"",
         "\"\\ude00\\ud83d\"", "\"\\u0000\"", "\"\\x\"", "\"\\u00e9\"", "\"\x00\"", "\"\t\"", "'a'", "nul", "[1,]", "{\"a\":1,}"]


def text(rng, least, most):
    if rng.random() < 0.3:
        return rng.choice(TEXTS)[:most] or "x"
    size = rng.choice([least, most]) if rng.random() < 0.1 else rng.randint(least, min(most, 12))
    plain = rng.randint(0, size)
    made = PLAIN[:plain]
    while len(made.encode()) < size:
        made += rng.choice(ALPHABET) if len(made) < 40 else "é日"
    return made


def digits(rng, count):
    return "%0*x" % (count, rng.getrandbits(4 * count))


def uuid(rng):
    return "-".join(digits(rng, count) for count in (8, 4, 4, 4, 12))


def stamp(rng):
    if rng.random() < 0.2:
        return rng.choice([0, 1, 951868799999999, 1558310400000000, messages.LAST_STAMP])
    return rng.randint(0, messages.LAST_STAMP)


def cost(rng):
    return rng.choice([1, 110000, 4294967295, rng.randint(1, 4294967295)])


def nullable(rng, value):
    return None if rng.random() < 0.3 else value


def left_out(rng, pairs, names):
    """Without some of these members."""
    return Object(pair for pair in pairs if pair[0] not in names or rng.random() < 0.7)


def item(rng, stored):
    deleted = rng.random() < 0.3
    made = Object([
        ("content", None if deleted else text(rng, 0, 60)),
        ("content_type", text(rng, 0 if deleted else 1, 255)),
        ("created_at", messages.stamp_text(stamp(rng)) if stored else nullable(rng, text(rng, 0, 30))),
        ("deleted", deleted),
        ("enc_item_key", None if deleted else text(rng, 0, 60)),
        ("updated_at", messages.stamp_text(stamp(rng)) if stored else nullable(rng, text(rng, 0, 30))),
        ("uuid", uuid(rng)),
    ])
    free = ["content", "enc_item_key"] + (["content_type"] if deleted else ["deleted"])
    return left_out(rng, made, free if stored else free + ["created_at", "updated_at"])


def items(rng, stored):
    return [item(rng, stored) for _ in range(rng.choice([0, 1, 1, 2, 3]))]


def params(rng):
    return [("pw_cost", cost(rng)), ("pw_nonce", text(rng, 1, 256)), ("version", "003")]


def request(rng, route):
    if route == "register":
        return Object([("email", text(rng, 1, 254)), ("password", digits(rng, 64))] + params(rng))
    if route == "sign_in":
        return Object([("email", text(rng, 1, 254)), ("password", digits(rng, 64))])
    if route == "change_pw":
        return Object([("current_password", digits(rng, 64)), ("new_password", digits(rng, 64))] + params(rng))
    made = Object([
        ("api", "20190520"),
        ("cursor_token", nullable(rng, text(rng, 0, 40))),
        ("items", items(rng, stored=False)),
        ("limit", Raw(rng.choice(NUMBERS)) if rng.random() < 0.1 else nullable(rng, rng.choice([1, 150, 500]))),
        ("sync_token", nullable(rng, text(rng, 0, 40))),
    ])
    return left_out(rng, made, ["cursor_token", "limit", "sync_token"])


def conflict(rng):
    kind = rng.choice(["sync_conflict", "uuid_conflict", "content_error"])
    stored = kind == "sync_conflict"
    return Object([("server_item" if stored else "unsaved_item", item(rng, stored)), ("type", kind)])


def answer(rng, route, status):
    if status != 200:
        made = Object([("name", text(rng, 0, 20)), ("number", rng.randint(0, NONE)), ("tag", text(rng, 0, 20)), ("uuid", uuid(rng))])
        return Object([("error", left_out(rng, made, ["name", "number", "uuid"]))])
    if route == "params":
        return Object([("identifier", text(rng, 1, 254))] + params(rng))
    if route != "sync":
        token = "".join(chr(rng.randint(33, 126)) for _ in range(rng.choice([1, 101, 1024])))
        return Object([("token", token), ("user", Object([("email", text(rng, 1, 254)), ("uuid", uuid(rng))]))])
    return Object([
        ("conflicts", [conflict(rng) for _ in range(rng.choice([0, 0, 1, 2]))]),
        ("cursor_token", nullable(rng, text(rng, 0, 40))),
        ("retrieved_items", items(rng, stored=True)),
        ("saved_items", items(rng, stored=True)),
        ("sync_token", text(rng, 0, 40)),
    ])


# ---- changes of a value


def nested(rng):
    """A value that is so deep that with the object around it, it is at the bound or next to it."""
    count = rng.choice([1, 125, 126, 127, 128])
    return Raw("[" * count + "]" * count if rng.random() < 0.5 else '{"a":' * count + "0" + "}" * count)


def any_value(rng):
    kind = rng.randrange(8)
    if kind == 0:
        return Raw(rng.choice(WORDS))
    if kind in (1, 2):
        return Raw(rng.choice(NUMBERS))
    if kind == 3:
        return text(rng, 0, 300)
    if kind == 4:
        return rng.choice([digits(rng, rng.choice([63, 64, 65])), digits(rng, 64).upper(), uuid(rng), uuid(rng).upper(), uuid(rng)[1:]])
    if kind == 5:
        return changed_text(rng, messages.stamp_text(stamp(rng)))
    if kind == 6:
        return nested(rng)
    return rng.choice([None, True, False, [], Object()])


def changed_text(rng, value):
    """One sign of a text changed, left out or put in."""
    at = rng.randint(0, len(value))
    sign = rng.choice(["0", "9", "6", "3", "1", "-", ":", " ", "T", "Z", "é", ""])
    return value[:at] + sign + value[at + rng.randint(0, 1):]


def objects_in(value):
    """The objects with members in a value, itself too."""
    found = [value] if isinstance(value, Object) and value else []
    inner = [pair[1] for pair in value] if isinstance(value, Object) else value if isinstance(value, list) else []
    for each in inner:
        found += objects_in(each)
    return found


def change_value(rng, value):
    """Changes a member of an object somewhere in the value."""
    within = objects_in(value)
    if not within:
        return
    members = value if value and rng.random() < 0.4 else rng.choice(within)
    at = rng.randrange(len(members))
    name, old = members[at]
    kind = rng.choice([0, 1, 1, 2, 3, 4, 5, 6])
    if kind == 0:
        del members[at]
    elif kind == 1:
        number = isinstance(old, int) and rng.random() < 0.7
        members[at] = (name, Raw(rng.choice(NUMBERS)) if number else any_value(rng))
    elif kind == 2:
        members.insert(rng.randint(0, len(members)), (name, any_value(rng)))
    elif kind == 3:
        members.append((rng.choice(["extra", "", "Email", "limit", "type", "number"]), any_value(rng)))
    elif kind == 4:
        rng.shuffle(members)
    elif kind == 5:
        members[at] = (name, changed_text(rng, old) if isinstance(old, str) else old)
    else:
        members[at] = (name, [old] if rng.random() < 0.5 else Object([(name, old)]))


# ---- the text of a value, and changes of it


def quoted(rng, value):
    """A string, some of its signs escaped that need not be."""
    made = json.dumps(value, ensure_ascii=rng.random() < 0.2)
    if rng.random() < 0.05 and value[:1].isascii() and value[:1].isalnum():
        made = '"\\u%04x' % ord(value[0]) + made[2:]
    return made.replace("/", "\\/") if rng.random() < 0.1 else made


def spelled(rng, value, blank):
    if isinstance(value, Raw):
        return value
    if isinstance(value, str):
        return quoted(rng, value)
    if isinstance(value, Object):
        inner = (quoted(rng, name) + blank + ":" + blank + spelled(rng, each, blank) for name, each in value)
        return "{" + blank + ("," + blank).join(inner) + "}"
    if isinstance(value, list):
        return "[" + ("," + blank).join(spelled(rng, each, blank) for each in value) + blank + "]"
    return json.dumps(value)


def changed_bytes(rng, data):
    """Some bytes changed, left out, put in, doubled or swapped."""
    at = rng.randint(0, len(data))
    size = rng.choice([1, 1, 1, 2, 5])
    kind = rng.randrange(5)
    if kind == 0:
        put = bytes([rng.choice([0, 9, 10, 32, 34, 44, 47, 58, 91, 92, 93, 123, 125, 128, 192, 237, 255, rng.randrange(256)])])
        return data[:at] + put + data[at + rng.randint(0, 1):]
    if kind == 1:
        return data[:at] + data[at + size:]
    if kind == 2:
        return data[:at] + data[at:at + size] * 2 + data[at + size:]
    if kind == 3:
        return data[:at]
    return data[:at] + data[at + 1:at + 2] + data[at:at + 1] + data[at + 2:]


def message_text(rng, value):
    """The text of a message: some as it was made, some with changed members, some with changed bytes, some with both."""
    kind = rng.random()
    if kind < 0.65:
        for _ in range(rng.choice([1, 1, 1, 2, 3])):
            change_value(rng, value)
    data = spelled(rng, value, rng.choice(["", "", " ", "\n", "\t\r "])).encode(errors="surrogatepass")
    if 0.55 < kind < 0.9:
        for _ in range(rng.choice([1, 1, 2])):
            data = changed_bytes(rng, data)
    return data


NAMES = [b"email", b"e%6Dail", b"%65mail", b"Email", b"email ", b"", b"a", b"%ff", b"e+mail"]
VALUES = [b"", b"alice", b"alice%40example.org", b"%", b"%4", b"%zz", b"+", b"%2B", b"%ff", b"%f0%9f%98%80", b"%f0%9f%98",
          b"%ed%a0%80", b"\xff\xc3\xa9", b"a=b", b"%00", b"~*-._", b"a" * 254, b"a" * 255, b"%c3%a9" * 127, b"%c3%a9" * 128, b"%80" * 85]


def query_text(rng):
    pairs = []
    for _ in range(rng.choice([0, 1, 1, 1, 2, 3])):
        name = rng.choice(NAMES) if rng.random() < 0.4 else b"email"
        pairs.append(name + rng.choice([b"=", b"=", b"=", b"", b"=="]) + rng.choice(VALUES))
    data = b"&".join(pairs)
    return changed_bytes(rng, data) if rng.random() < 0.3 else data


# ---- the checks


class Rows:
    """The rows that were worked out by hand, for a reader with the functions of messages.py."""

    def read(self, function, words, line):
        """What is read is so, and what is written for it is read likewise."""
        with self.subTest(words=words):
            self.assertEqual(function(*words), line)
            if not line.startswith(b"!"):
                self.assertEqual(function(*words[:-1], line), line)

    def test_rows_of_requests(self):
        self.assertEqual(len(message_rows.REQUESTS), 121)
        for *words, line in message_rows.REQUESTS:
            self.read(self.reader.request_line, words, line)

    def test_rows_of_answers(self):
        self.assertEqual(len(message_rows.ANSWERS), 81)
        for *words, line in message_rows.ANSWERS:
            self.read(self.reader.answer_line, words, line)

    def test_rows_of_stamps(self):
        for stamp, made in message_rows.STAMPS:
            self.assertEqual((self.reader.stamp_text(stamp), self.stamp(made)), (made, stamp))
        for other in message_rows.NO_STAMPS:
            self.assertIsNone(self.stamp(other), other)

    def test_rows_of_tokens(self):
        for stamp, made in message_rows.TOKENS:
            self.assertEqual((self.reader.token_text(stamp), self.token(made)), (made, stamp))
        for other in message_rows.NO_TOKENS:
            self.assertIsNone(self.token(other), other)


class Independent(Rows, unittest.TestCase):
    """The reader in Python has the lines of the rows."""

    reader = messages

    def stamp(self, text):
        return messages.stamp_of(text)

    def token(self, text):
        return messages.token_of(text)


@unittest.skipUnless(LIBRARY, "the proved functions are no shared library, as tests/run makes one where `cc` is installed")
class Messages(Rows, unittest.TestCase):
    @classmethod
    def setUpClass(cls):
        cls.reader = cls.proved = Proved(LIBRARY)

    def stamp(self, text):
        return self.proved.stamp(text.encode())

    def token(self, text):
        return self.proved.token(text)

    def counted(self, told, least):
        """Each kind was told at least so often."""
        print("; ".join("%s %d" % pair for pair in sorted(told.items())), flush=True)
        for kind in least:
            self.assertGreaterEqual(told[kind], least[kind], kind)

    def test_requests(self):
        rng = random.Random(SEED)
        told = Counter()
        for _ in range(MESSAGES // 2):
            route = rng.choice(messages.ROUTES + ("sync", "sync", "sync"))
            data = query_text(rng) if route == "params" else message_text(rng, request(rng, route))
            line = self.proved.request_line(route, data)
            self.assertEqual(line, messages.request_line(route, data), (route, data))
            if line.startswith(b"!"):
                told[line[1:].decode().split(" ")[0]] += 1
            else:
                told["read"] += 1
                self.assertEqual(self.proved.request_line(route, line), line, (route, data))
        self.counted(told, {"read": 10000, "json": 5000, "member": 5000, "limit": 50})

    def test_answers(self):
        rng = random.Random(SEED + 1)
        told = Counter()
        for _ in range(MESSAGES // 2):
            route = rng.choice(messages.ROUTES + ("sync", "sync", "sync"))
            status = rng.choice(STATUSES)
            data = message_text(rng, answer(rng, route, status))
            line = self.proved.answer_line(route, status, data)
            self.assertEqual(line, messages.answer_line(route, status, data), (route, status, data))
            if line.startswith(b"!"):
                told[line[1:].decode().split(" ")[0]] += 1
            else:
                told["read"] += 1
                self.assertEqual(self.proved.answer_line(route, status, line), line, (route, status, data))
        self.counted(told, {"read": 10000, "json": 5000, "member": 5000})

    def test_stamps(self):
        rng = random.Random(SEED + 2)
        for _ in range(STAMPS):
            number = stamp(rng)
            made = messages.stamp_text(number)
            self.assertEqual(self.proved.stamp_text(number), made)
            self.assertEqual(self.proved.stamp(made.encode()), number)
            other = changed_text(rng, made)
            self.assertEqual(self.proved.stamp(other.encode()), messages.stamp_of(other), other)
        for number in (messages.LAST_STAMP + 1, NONE - 1):
            self.assertIsNone(self.proved.stamp_text(number))

    def test_tokens(self):
        rng = random.Random(SEED + 3)
        for _ in range(STAMPS):
            number = rng.choice([stamp(rng), rng.randrange(10 ** rng.randint(1, 18))]) % (messages.LAST_STAMP + 1)
            made = messages.token_text(number)
            self.assertEqual(self.proved.token_text(number), made)
            self.assertEqual(self.proved.token(made), number)
            other = changed_bytes(rng, made) if rng.random() < 0.5 else messages.base64.b64encode(changed_bytes(rng, b"2:%d" % number))
            self.assertEqual(self.proved.token(other), messages.token_of(other), other)
        for number in (messages.LAST_STAMP + 1, NONE - 1):
            self.assertIsNone(self.proved.token_text(number))


if __name__ == "__main__":
    unittest.main()

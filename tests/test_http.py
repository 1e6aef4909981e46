"""The proved reader and writers of HTTP: a table of heads in and out of form, at every cutting, and mutated requests
beside a reader in Python that was written from docs/FORMATS.md.

No command reads HTTP, so the proved functions are called in `crates/sn_bench` as a shared library. `tests/run` builds
it and names it in SN_LIBRARY. The requests are the same in each run; another SN_SEED gives others, and SN_CASES says how
many.
"""

import ctypes
import os
import random
import unittest

import http_reader

LIBRARY = os.environ.get("SN_LIBRARY")
SEED = int(os.environ.get("SN_SEED") or 9112)
CASES = int(os.environ.get("SN_CASES") or 100000)
ROOM = 1 << 16
NONE = (1 << 64) - 1
WHOLE = 1 << 31


def given(data):
    return data, ctypes.c_size_t(len(data))


def sizes_of(sizes):
    return (ctypes.c_uint32 * len(sizes))(*sizes), ctypes.c_size_t(len(sizes))


class Proved:
    """The functions of the library."""

    def __init__(self, path):
        self.library = ctypes.CDLL(path)
        for name in ["messages", "count", "write_answer", "write_request", "read_answer"]:
            getattr(self.library, "sn_bench_http_" + name).restype = ctypes.c_uint64
        self.room = ctypes.create_string_buffer(ROOM)

    def written(self, length):
        return None if length == NONE else self.room.raw[:length]

    def lines(self, data, sizes):
        """The lines of an input whose pieces have these sizes: the piece that begins at a place has the size there."""
        return self.lines_in(data, sizes_of(sizes))

    def lines_in(self, data, sizes):
        length = self.library.sn_bench_http_messages(*given(data), *sizes, self.room, ctypes.c_size_t(ROOM))
        return self.written(length).decode().splitlines()

    def answer_bytes(self, status, allow, closing, body):
        words = [ctypes.c_uint16(status), *given(allow), ctypes.c_bool(closing), *given(body)]
        return self.written(self.library.sn_bench_http_write_answer(*words, self.room, ctypes.c_size_t(ROOM)))

    def request_bytes(self, method, target, host, token, body):
        words = [word for text in (method, target, host, token, body) for word in given(text)]
        return self.written(self.library.sn_bench_http_write_request(*words, self.room, ctypes.c_size_t(ROOM)))

    def answer(self, data):
        told = self.library.sn_bench_http_read_answer(*given(data))
        if told == NONE:
            return None
        length = told & 0xFFFFFFFF
        return told >> 32, data[len(data) - length :]


def message(method=b"GET", target=b"/", token=b"", closing=False, body=b"", place=0):
    texts = "".join("x%s " % text.hex() for text in (method, target, token, body))
    return ["message %d %d %s" % (place, closing, texts)]


def check(status, place=0):
    return ["check %d %d " % (status, place)]


def with_end(lines):
    """The lines of an input that ends behind its message, or at a check."""
    return lines + (["end"] if lines[0].startswith("message") else [])


def get(*fields, method=b"GET", version=b"1.1", body=b""):
    """A request of these fields' lines."""
    return method + b" / HTTP/" + version + b"\r\n" + b"".join(field + b"\r\n" for field in fields) + b"\r\n" + body


def post(*fields, body=b""):
    return get(*fields, method=b"POST", body=body)


AUTH = b"Authorization: "

# An input and what it is: its one message, behind which it ends, or the status of the check that fails.
TABLE = [
    # request lines
    (b"GET / HTTP/1.1\r\n\r\n", message()),
    (b"GET / HTTP/1.1\n\n", message()),
    (b"GET / HTTP/1.1\r\n\n", message()),
    (b"GET / HTTP/1.1\n\r\n", message()),
    (b"\r\nGET / HTTP/1.1\r\n\r\n", message()),
    (b"\n\r\n\nGET / HTTP/1.1\r\n\r\n", message()),
    (b"get / HTTP/1.1\r\n\r\n", message(method=b"get")),
    (b"post / HTTP/1.1\r\n\r\n", message(method=b"post")),
    (b"A!#$%&'*+-.^_`|~9 / HTTP/1.1\r\n\r\n", message(method=b"A!#$%&'*+-.^_`|~9")),
    (b"GET /a?b=%20#c HTTP/1.1\r\n\r\n", message(target=b"/a?b=%20#c")),
    (b"OPTIONS * HTTP/1.1\r\n\r\n", message(method=b"OPTIONS", target=b"*")),
    (b"GET http://a/b HTTP/1.1\r\n\r\n", message(target=b"http://a/b")),
    (b"GET /\xc3\xa4 HTTP/1.1\r\n\r\n", message(target=b"/\xc3\xa4")),
    (b"GET /\xc3 HTTP/1.1\r\n\r\n", check(400)),
    (b"GET /\xff HTTP/1.1\r\n\r\n", check(400)),
    (b"GET /\x7f HTTP/1.1\r\n\r\n", check(400)),
    (b"GET /\x1f HTTP/1.1\r\n\r\n", check(400)),
    (b"GET  / HTTP/1.1\r\n\r\n", check(400)),
    (b"GET /  HTTP/1.1\r\n\r\n", check(400)),
    (b"GET / HTTP/1.1 \r\n\r\n", check(400)),
    (b" GET / HTTP/1.1\r\n\r\n", check(400)),
    (b"GET\t/ HTTP/1.1\r\n\r\n", check(400)),
    (b"GET / HTTP/1.1\r\r\n\r\n", check(400)),
    (b"GET / HTTP/1.1\r\n\r", check(400)),
    (b"GET / HTTP/1.2\r\n\r\n", check(400)),
    (b"GET / HTTP/2.0\r\n\r\n", check(400)),
    (b"GET / http/1.1\r\n\r\n", check(400)),
    (b"GET / HTTP/1.10\r\n\r\n", check(400)),
    (b"GET /\r\n\r\n", check(400)),
    (b"GET HTTP/1.1\r\n\r\n", check(400)),
    (b"G(T / HTTP/1.1\r\n\r\n", check(400)),
    (b"\r\n\r\n", check(400)),
    (b"\rGET / HTTP/1.1\r\n\r\n", check(400)),
    (b"\x00", check(400)),
    # fields
    (get(b"Host: a"), message()),
    (get(b"Host:a"), message()),
    (get(b"Host:"), message()),
    (get(b"Host: \t "), message()),
    (get(b"X: \x80\xff\t~"), message()),
    (get(b"X: a\x00b"), check(400)),
    (get(b"X: a\x7fb"), check(400)),
    (get(b"X: a\rb"), check(400)),
    (get(b"X : a"), check(400)),
    (get(b" X: a"), check(400)),
    (get(b"X: a", b" b"), check(400)),
    (get(b": a"), check(400)),
    (get(b"X"), check(400)),
    (get(b"X\xc3\xa4: a"), check(400)),
    (get(*[b"X: a"] * 64), message()),
    (get(*[b"X: a"] * 65), check(400)),
    # a head of 16,384 bytes, and one more
    (get(b"X: " + b"a" * (16384 - len(get(b"X: ")))), message()),
    (get(b"X: " + b"a" * (16385 - len(get(b"X: ")))), check(400)),
    (b"\n" * (16384 - len(get())) + get(), message()),
    (b"\n" * (16385 - len(get())) + get(), check(400)),
    # codings
    (post(b"Transfer-Encoding: chunked"), check(501)),
    (get(b"transfer-ENCODING: identity"), check(501)),
    (get(b"Transfer-Encoding:"), check(501)),
    (post(b"Transfer-Encoding: chunked", b"Content-Length: x"), check(501)),
    (get(b"Content-Encoding: gzip"), check(501)),
    (get(b"Content-Encoding: IDENTITY"), message()),
    (get(b"Content-Encoding: identity", b"Content-Encoding: identity"), message()),
    (get(b"Content-Encoding: identity", b"Content-Encoding: br"), check(501)),
    (get(b"Content-Encoding: identity, identity"), check(501)),
    (get(b"Content-Encoding:"), check(501)),
    # lengths
    (post(b"Content-Length: 0"), message(method=b"POST")),
    (post(b"Content-Length: 3", body=b"abc"), message(method=b"POST", body=b"abc")),
    (post(b"content-length:\t 3 \t", body=b"\r\n\x00"), message(method=b"POST", body=b"\r\n\x00")),
    (post(b"Content-Length: 0000000003", body=b"abc"), message(method=b"POST", body=b"abc")),
    (get(b"Content-Length: 3", body=b"abc"), message(body=b"abc")),
    (get(b"Content-Length: 1", b"Content-Length: 1", body=b"a"), message(body=b"a")),
    (get(b"Content-Length: 1", b"Content-Length: 2", body=b"ab"), check(400)),
    (get(b"Content-Length: 1", b"Content-Length: 01", body=b"a"), check(400)),
    (get(b"Content-Length: 1, 1", body=b"a"), check(400)),
    (get(b"Content-Length: 00000000001", body=b"a"), check(400)),
    (get(b"Content-Length:"), check(400)),
    (get(b"Content-Length: +1", body=b"a"), check(400)),
    (get(b"Content-Length: -1", body=b"a"), check(400)),
    (get(b"Content-Length: 1 1", body=b"a"), check(400)),
    (get(b"Content-Length: 0x1", body=b"a"), check(400)),
    (get(b"Content-Length: a", body=b"a"), check(400)),
    (post(), check(411)),
    (post(b"Host: a"), check(411)),
    (get(method=b"PUT"), message(method=b"PUT")),
    (get(b"Content-Length: 8388609"), check(413)),
    (post(b"Content-Length: 9999999999"), check(413)),
    (get(b"Content-Length: 8388608"), check(400)),
    (get(b"Content-Length: 4", body=b"abc"), check(400)),
    # credentials
    (get(AUTH + b"Bearer tk"), message(token=b"tk")),
    (get(AUTH + b"bEARER tk"), message(token=b"tk")),
    (get(AUTH + b"Bearer   tk"), message(token=b"tk")),
    (get(AUTH + b"Bearer\ttk"), message()),
    (get(AUTH + b"Bearertk"), message()),
    (get(AUTH + b"Bearer"), message()),
    (get(AUTH + b"Bearer "), message()),
    (get(AUTH + b"Basic tk"), message()),
    (get(AUTH + b"Bearer T 1"), message()),
    (get(AUTH + b"Bearer T\xff"), message()),
    (get(AUTH + b"Bearer " + b"t" * 1024), message(token=b"t" * 1024)),
    (get(AUTH + b"Bearer " + b"t" * 1025), message()),
    (get(AUTH + b"Bearer tk", AUTH + b"Bearer other"), message(token=b"tk")),
    (get(AUTH + b"Basic x", AUTH + b"Bearer other"), message()),
    # connections that close
    (get(version=b"1.0"), message(closing=True)),
    (get(b"Connection: keep-alive", version=b"1.0"), message(closing=True)),
    (get(b"Connection: close"), message(closing=True)),
    (get(b"CONNECTION: CLOSE"), message(closing=True)),
    (get(b"Connection: a,\t close ,b"), message(closing=True)),
    (get(b"Connection: keep-alive", b"Connection: close"), message(closing=True)),
    (get(b"Connection: close, keep-alive"), message(closing=True)),
    (get(b"Connection: closed"), message()),
    (get(b"Connection: a close"), message()),
    (get(b"Connection: keep-alive"), message()),
    (get(b"Connection: ,,"), message()),
]

# An input of several messages, of which the last is cut short, and the line of each.
SEVERAL = (
    b"\r\nPOST /a HTTP/1.1\r\nHost: x\ncontent-LENGTH: 3\r\nAuthorization: bearer tk\r\n\r\nabc"
    b"GET /b HTTP/1.0\r\n\r\n"
    b"GET /c?d HTTP/1.1\r\nConnection: x , Close\r\nContent-Encoding: Identity\r\nContent-Length: 0\r\n\r\n"
    b"PUT /e HTTP"
)
LINES = [
    *message(b"POST", b"/a", b"tk", False, b"abc"),
    *message(target=b"/b", closing=True, place=78),
    *message(target=b"/c?d", closing=True, place=97),
    *check(400, place=188),
]

# Bytes that mean something, for mutations.
PARTS = [
    b"\r", b"\n", b"\r\n", b"\r\n\r\n", b" ", b"\t", b":", b",", b"0", b"1", b"\x00", b"\x7f", b"\x80", b"\xc3\xa4", b"GET ", b"POST ",
    b" HTTP/1.1\r\n", b" HTTP/1.0\r\n", b"Content-Length: 3\r\n", b"content-length:0\r\n", b"Content-Length: 9999999999\r\n",
    b"Transfer-Encoding: chunked\r\n", b"Content-Encoding: identity\r\n", b"Connection: a, close\r\n", b"Authorization: Bearer t\r\n", b"abc",
]


def mutated(rng, data):
    """Some bytes changed, left out, doubled or put in."""
    for _ in range(rng.choice([0, 1, 1, 2, 4])):
        at = rng.randint(0, len(data))
        kind = rng.randrange(5)
        if kind == 0 and at < len(data):
            data = data[:at] + bytes([rng.randrange(256)]) + data[at + 1 :]
        elif kind == 1:
            data = data[:at] + data[at + rng.choice([1, 1, 2, 8]) :]
        elif kind == 2:
            end = at + rng.choice([1, 4, 30])
            data = data[:end] + data[at:end] + data[end:]
        elif kind == 3:
            data = data[:at] + rng.choice(PARTS) + data[at:]
        else:
            data = data[:at] + bytes([rng.randrange(256)]) + data[at:]
    return data


def random_sizes(rng):
    largest = rng.choice([1, 2, 7, 40, 255, WHOLE])
    return [rng.randint(1, largest) for _ in range(rng.choice([1, 3, 17]))]


class Independent(unittest.TestCase):
    def test_the_reader_in_python(self):
        """It has the lines of the heads, and of several messages behind one another."""
        for data, expected in TABLE:
            self.assertEqual(http_reader.lines(data), with_end(expected), data)
        self.assertEqual(http_reader.lines(SEVERAL), LINES)


@unittest.skipUnless(LIBRARY, "the proved functions are no shared library, as tests/run makes one where `cc` is installed")
class Http(unittest.TestCase):
    @classmethod
    def setUpClass(cls):
        cls.proved = Proved(LIBRARY)

    def test_several_messages(self):
        """In pieces of any size."""
        for size in (1, 2, 7, 50, 5000, WHOLE):
            self.assertEqual(self.proved.lines(SEVERAL, [size]), LINES, size)

    def test_empty_lines(self):
        """They come a byte at a time, and aren't parsed again at each."""
        for size in (1, WHOLE):
            self.assertEqual(self.proved.lines(b"\n" * 20000, [size]), check(400), size)

    def test_table(self):
        """Each head, whole and cut at every place."""
        self.assertGreaterEqual(len(TABLE), 80)
        for data, expected in TABLE:
            ended = with_end(expected)
            self.assertEqual(self.proved.lines(data, [WHOLE]), ended, data)
            self.assertEqual(self.proved.lines(data, [1]), ended, data)
            sizes = sizes_of([WHOLE] * len(data))
            for cut in range(1, len(data)):
                sizes[0][0] = cut
                self.assertEqual(self.proved.lines_in(data, sizes), ended, (data, cut))

    def test_cut_short(self):
        """Each front of each head, as an input that is over there."""
        for data, _ in TABLE:
            if len(data) > 2000:
                continue
            for end in range(len(data)):
                self.assertEqual(self.proved.lines(data[:end], [WHOLE]), http_reader.lines(data[:end]), data[:end])
        for data in [get(b"Host: a"), post(b"Content-Length: 3", body=b"abc")]:
            self.assertEqual(self.proved.lines(b"", [1]), ["end"])
            for end in range(1, len(data)):
                self.assertEqual(self.proved.lines(data[:end], [3]), check(400), data[:end])

    def test_mutated(self):
        """Requests of several messages, mutated, in random pieces."""
        rng = random.Random(SEED)
        short = [(data, expected) for data, expected in TABLE if len(data) < 2000]
        heads = [data for data, _ in short]
        in_form = [data for data, expected in short if expected[0].startswith("message")]
        messages = 0
        for case in range(CASES):
            data = mutated(rng, b"".join(rng.choice(rng.choice([in_form, in_form, heads])) for _ in range(rng.choice([1, 1, 2, 3]))))
            expected = http_reader.lines(data)
            messages += len(expected) - 1
            self.assertEqual(self.proved.lines(data, random_sizes(rng)), expected, (case, data))
        self.assertGreater(messages, CASES // 4)

    def test_written(self):
        """What is written, byte for byte, and read back."""
        body = b'{"error":{"tag":"no-route"}}'
        expected = b"HTTP/1.1 404 Not Found\r\nContent-Type: application/json\r\nContent-Length: 28\r\n\r\n" + body
        self.assertEqual(self.proved.answer_bytes(404, b"", False, body), expected)
        lines = b"HTTP/1.1 405 Method Not Allowed\r\nContent-Type: application/json\r\nContent-Length: 0\r\nAllow: POST\r\nConnection: close\r\n\r\n"
        self.assertEqual(self.proved.answer_bytes(405, b"POST", True, b""), lines)
        lines = b"HTTP/1.1 401 Unauthorized\r\nContent-Type: application/json\r\nContent-Length: 2\r\nWWW-Authenticate: Bearer\r\n\r\n{}"
        self.assertEqual(self.proved.answer_bytes(401, b"", False, b"{}"), lines)
        phrases = {200: b"OK", 400: b"Bad Request", 409: b"Conflict", 411: b"Length Required", 413: b"Content Too Large", 501: b"Not Implemented", 503: b"Service Unavailable", 299: b""}
        for status, phrase in phrases.items():
            written = self.proved.answer_bytes(status, b"", False, b"{}")
            self.assertTrue(written.startswith(b"HTTP/1.1 %d %s\r\n" % (status, phrase)), written)
            self.assertEqual(http_reader.answer(written), (status, b"{}"))
        request = b"POST /a HTTP/1.1\r\nHost: replay:0\r\nContent-Type: application/json\r\nAuthorization: Bearer T\r\nContent-Length: 2\r\nConnection: close\r\n\r\n{}"
        self.assertEqual(self.proved.request_bytes(b"POST", b"/a", b"replay:0", b"T", b"{}"), request)
        request = b"GET /a?b HTTP/1.1\r\nHost: h:1\r\nContent-Length: 0\r\nConnection: close\r\n\r\n"
        self.assertEqual(self.proved.request_bytes(b"GET", b"/a?b", b"h:1", b"", b""), request)

    def test_random_written(self):
        """Random requests and answers are read back by the independent reader, and mutated answers as it reads them."""
        rng = random.Random(SEED + 1)
        for _ in range(CASES // 20):
            method, target = rng.choice([b"GET", b"POST"]), b"/" + rng.choice([b"", b"auth", b"items/sync", b"a?b=c"])
            token = bytes(rng.randint(33, 126) for _ in range(rng.choice([0, 1, 36, 1024])))
            body = rng.randbytes(rng.choice([0, 1, 300, 2000]))
            written = self.proved.request_bytes(method, target, b"a:%d" % rng.randrange(65536), token, body)
            self.assertEqual(http_reader.lines(written), message(method, target, token, True, body) + ["end"], written)
            self.assertEqual(self.proved.lines(written, random_sizes(rng)), http_reader.lines(written))
            status = rng.randint(100, 999)
            written = self.proved.answer_bytes(status, rng.choice([b"", b"GET"]), rng.random() < 0.5, body)
            self.assertEqual(http_reader.answer(written), (status, body), written)
            self.assertEqual(self.proved.answer(written), (status, body), written)
            changed = mutated(rng, written[: len(written) - len(body)]) + body
            self.assertEqual(self.proved.answer(changed), http_reader.answer(changed), changed)


if __name__ == "__main__":
    unittest.main()

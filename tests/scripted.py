"""Servers that aren't `sn serve`: one that says what a check tells it to, one that keeps the server's rules by the model of
`rule.py`, and proxies that lose messages. Each serves one connection after another, in a thread, as the program's does.
"""

import json
import random
import socket
import struct
import threading
import time

import rule
import serving

# In place of an answer: the connection is reset, so that the peer's read or write fails.
RESET = object()
ROUTES = {"/auth": "register", "/auth/params": "params", "/auth/sign_in": "sign_in", "/auth/change_pw": "change_pw", "/items/sync": "sync"}
PHRASES = {200: "OK", 401: "Unauthorized", 404: "Not Found", 409: "Conflict"}


class Asked:
    """A request, as it came."""

    def __init__(self, data):
        self.data = data
        head, _, self.body = data.partition(b"\r\n\r\n")
        first, *lines = head.decode().split("\r\n")
        self.method, self.target, _ = first.split(" ")
        self.headers = dict(line.split(": ", 1) for line in lines)
        self.token = self.headers.get("Authorization", "").removeprefix("Bearer ")

    def json(self):
        return json.loads(self.body)


def answer(status, body):
    """The bytes of an answer."""
    data = body if isinstance(body, bytes) else json.dumps(body).encode()
    lines = "HTTP/1.1 %d %s" % (status, PHRASES.get(status, "")), "Content-Length: %d" % len(data), "Connection: close"
    return "\r\n".join([*lines, "", ""]).encode() + data


def read_message(connection):
    """One message with its length, or less where the peer ends before."""
    data = b""
    while b"\r\n\r\n" not in data:
        piece = connection.recv(1 << 16)
        if not piece:
            return data
        data += piece
    head, _, _ = data.partition(b"\r\n\r\n")
    lengths = [line.split(b":")[1] for line in head.lower().split(b"\r\n") if line.startswith(b"content-length:")]
    whole = len(head) + 4 + int(lengths[0] if lengths else 0)
    while len(data) < whole:
        piece = connection.recv(1 << 20)
        if not piece:
            return data
        data += piece
    return data


def deliver(port, data):
    """A request to the server at this port, and its answer."""
    with socket.create_connection(("127.0.0.1", port), timeout=60) as connection:
        connection.sendall(data)
        return read_message(connection)


def reset(connection):
    """Ends a connection so that the peer sees a fault, and not an end."""
    connection.setsockopt(socket.SOL_SOCKET, socket.SO_LINGER, struct.pack("ii", 1, 0))
    connection.close()


class Listening:
    """Takes connections, one after another, until it is left."""

    def __enter__(self):
        self.listener = socket.create_server(("127.0.0.1", 0), backlog=64)
        self.port = self.listener.getsockname()[1]
        self.failed = None
        self.thread = threading.Thread(target=self.serve, daemon=True)
        self.thread.start()
        return self

    def __exit__(self, *raised):
        # What wakes the thread in `accept`.
        self.listener.shutdown(socket.SHUT_RDWR)
        self.listener.close()
        self.thread.join(30)
        if self.failed is not None and raised == (None, None, None):
            raise self.failed

    def serve(self):
        while True:
            try:
                connection, _ = self.listener.accept()
            except OSError:
                return
            try:
                self.take(connection)
            except OSError:
                pass
            except Exception as error:
                self.failed = error
            finally:
                connection.close()


class Scripted(Listening):
    """Answers each request by what `says` gives for it: bytes, or RESET. The requests are kept, but for those that it is
    told to forget."""

    def __init__(self, says, keeps=True):
        self.says, self.keeps = says, keeps
        self.asked, self.count = [], 0

    def take(self, connection):
        connection.settimeout(60)
        data = read_message(connection)
        if not data:
            return
        request = Asked(data)
        self.count += 1
        if self.keeps:
            self.asked.append(request)
        said = self.says(request)
        if said is RESET:
            reset(connection)
        else:
            connection.sendall(said)


class Rules(Scripted):
    """A server by the model of the rules, whose clock is the system's."""

    def __init__(self):
        super().__init__(self.by_rule)
        self.rules = rule.Server(bytes(range(32)))

    def by_rule(self, request):
        path, _, query = request.target.partition("?")
        given = query if request.method == "GET" else request.body
        status, body, _ = self.rules.handle(ROUTES[path], request.token, given, int(time.time() * 1e6))
        return answer(status, body.encode())


class Losing(Listening):
    """A proxy before a server. By chance a request isn't delivered, or its answer gets lost in whole or in part, or a
    request is delivered once more later; `loses` turns all that on and off."""

    WAYS = ("whole", "whole", "no request", "no answer", "an end", "a part", "reset at once")

    def __init__(self, port, seed):
        self.server, self.drawn = port, random.Random(seed)
        self.loses, self.delivered, self.late = True, [], 0
        self.lost = dict.fromkeys(self.WAYS, 0)

    def deliver_late(self):
        """What was sent is delivered once more, and the answer is thrown away."""
        if self.delivered and self.drawn.random() < 0.2:
            deliver(self.server, self.drawn.choice(self.delivered))
            self.late += 1

    def take(self, connection):
        connection.settimeout(60)
        way = self.drawn.choice(self.WAYS) if self.loses else "whole"
        self.lost[way] += 1
        if way == "reset at once":
            reset(connection)
            return
        data = read_message(connection)
        if not data or way == "no request":
            reset(connection)
            return
        self.delivered.append(data)
        given = deliver(self.server, data)
        if way == "no answer":
            reset(connection)
        elif way == "a part":
            connection.sendall(given[: self.drawn.randrange(1, len(given))])
        elif way == "whole":
            connection.sendall(given)
        if self.loses:
            self.deliver_late()


class Dropping(Listening):
    """A proxy before a server that keeps the paths of the requests, and the number of their bytes. It loses one of them, or its
    answer."""

    def __init__(self, port):
        self.server = port
        self.lose(None, 0)

    def lose(self, what, number):
        """From now on it loses the "request" of this number, or its "answer"; requests are counted from 1."""
        self.what, self.number = what, number
        self.paths, self.size = [], 0

    def take(self, connection):
        connection.settimeout(60)
        data = read_message(connection)
        if not data:
            return
        self.paths.append(Asked(data).target.partition("?")[0])
        self.size += len(data)
        lost = self.what if len(self.paths) == self.number else None
        given = None if lost == "request" else deliver(self.server, data)
        if lost is None:
            connection.sendall(given)
        else:
            reset(connection)


def stored(item, stamp=5, **members):
    """An item as a server gives it."""
    given = {"content": None, "content_type": "Note", "created_at": serving.stamp_text(1), "deleted": False, "enc_item_key": None}
    return {**given, **item, "created_at": serving.stamp_text(1), "updated_at": serving.stamp_text(stamp), **members}


def gone(uuid, stamp):
    """A deleted item as a server gives it."""
    return stored({"uuid": uuid}, stamp, deleted=True, content_type="")


def sync_body(saved=(), conflicts=(), retrieved=(), cursor=None, token="Mjox"):
    """The answer to a sync."""
    lists = {"saved_items": list(saved), "conflicts": list(conflicts), "retrieved_items": list(retrieved)}
    return {**lists, "cursor_token": cursor, "sync_token": token}


def account_body(identifier="alice", token="token"):
    return {"token": token, "user": {"email": identifier, "uuid": "00000000-0000-8000-8000-000000000001"}}


def params_body(identifier="alice", cost=110000, nonce="6e"):
    return {"identifier": identifier, "pw_cost": cost, "pw_nonce": nonce, "version": "003"}

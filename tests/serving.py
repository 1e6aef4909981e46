"""A running `sn serve` and one who talks to it, for checks: over loopback, with Python's own HTTP client."""

import base64
import hashlib
import hmac
import http.client
import json
import os
import resource
import shutil
import signal
import subprocess
import tempfile

import independent
import journal
import program

MOST_REQUESTS = 1_000_000


class Served:
    """A server over one store, in a process of its own, which gets no more memory than is said, whose files don't grow past so many
    bytes, and which gets these names of the environment besides. The system chooses the port."""

    def __init__(self, store, requests=MOST_REQUESTS, port=0, memory=None, file_limit=None, environment=()):
        words = ["serve", "--store", store, "--port", str(port), "--requests", str(requests)]
        pipes = dict(stdin=subprocess.DEVNULL, stdout=subprocess.PIPE, stderr=subprocess.PIPE)

        def limits():
            for which, most in ((resource.RLIMIT_AS, memory), (resource.RLIMIT_FSIZE, file_limit)):
                if most is not None:
                    resource.setrlimit(which, (most, most))
            if file_limit is not None:
                signal.signal(signal.SIGXFSZ, signal.SIG_IGN)

        self.process = subprocess.Popen([program.SN] + words, preexec_fn=limits, env={**os.environ, **dict(environment)}, **pipes)
        line = self.process.stdout.readline()
        self.port = int(line.split()[1]) if line.startswith(b"listening ") else None

    def kill(self):
        """Stops it at whatever it is doing."""
        self.process.send_signal(signal.SIGKILL)
        return self.ended()

    def ended(self, timeout=60):
        """Status and standard error, once it has ended."""
        out, err = self.process.communicate(timeout=timeout)
        return self.process.returncode, err

    def __enter__(self):
        return self

    def __exit__(self, *raised):
        if self.process.poll() is None:
            self.kill()


class Store:
    """A path for a store in a folder of its own."""

    def __enter__(self):
        self.folder = tempfile.mkdtemp(prefix="sn-store-")
        return os.path.join(self.folder, "server")

    def __exit__(self, *raised):
        shutil.rmtree(self.folder)


def make_store(path, *payloads):
    """Writes the file of a server's store, of these batches."""
    with open(path, "wb") as file:
        file.write(journal.header(b"S"))
        for payload in payloads:
            file.write(b"\1" + len(payload).to_bytes(4, "big") + payload)
        file.write(b"\0")


class Client:
    """One who asks the server at this port, a connection a request or one for all."""

    def __init__(self, port, keeps=False, context=None, timeout=60):
        self.port, self.keeps, self.connection = port, keeps, None
        self.context, self.timeout, self.token = context, timeout, None

    def connected(self):
        """A new connection, over TLS where there is a context for it."""
        if self.context is not None:
            return http.client.HTTPSConnection("127.0.0.1", self.port, timeout=self.timeout, context=self.context)
        return http.client.HTTPConnection("127.0.0.1", self.port, timeout=self.timeout)

    def ask(self, method, target, body=None, token=None):
        """Status and the read answer."""
        connection = self.connection or self.connected()
        headers = {"Content-Type": "application/json"}
        if token is not None:
            headers["Authorization"] = "Bearer " + token
        if not self.keeps:
            headers["Connection"] = "close"
        text = None if body is None else json.dumps(body).encode()
        connection.request(method, target, body=text, headers=headers)
        answer = connection.getresponse()
        read = answer.status, json.loads(answer.read())
        if self.keeps and not answer.will_close:
            self.connection = connection
        else:
            connection.close()
            self.connection = None
        return read

    def register(self, identifier, pw, cost=110000, nonce="6e"):
        asked = {"email": identifier, "password": pw, "pw_cost": cost, "pw_nonce": nonce, "version": "003"}
        return self.account(self.ask("POST", "/auth", asked))

    def sign_in(self, identifier, pw):
        return self.account(self.ask("POST", "/auth/sign_in", {"email": identifier, "password": pw}))

    def change(self, current, pw, nonce, cost=110000):
        asked = {"current_password": current, "new_password": pw, "pw_cost": cost, "pw_nonce": nonce, "version": "003"}
        return self.account(self.ask("POST", "/auth/change_pw", asked, self.token))

    def account(self, answer):
        if answer[0] == 200:
            self.token = answer[1]["token"]
        return answer

    def sync(self, items=(), sync_token=None, cursor_token=None, limit=None):
        asked = {"api": "20190520", "items": list(items)}
        for name, value in (("sync_token", sync_token), ("cursor_token", cursor_token), ("limit", limit)):
            if value is not None:
                asked[name] = value
        return self.ask("POST", "/items/sync", asked, self.token)


def string_of(uuid, text, identifier, cost, nonce):
    """A 003 string in form, of these bytes in place of a ciphertext. A server looks at no more than its form."""
    data = independent.pad(text)
    parts = "003", hashlib.sha256(text).hexdigest(), uuid, hashlib.md5(text).hexdigest()
    return ":".join(parts + (base64.b64encode(data).decode(), independent.params_part(identifier, cost, nonce)))


def item_of(uuid, text, identifier="alice", cost=110000, nonce="6e", updated_at=None, kind="Note"):
    content = string_of(uuid, b"content " + text, identifier, cost, nonce)
    key = string_of(uuid, b"key " + text, identifier, cost, nonce)
    return {"uuid": uuid, "content_type": kind, "content": content, "enc_item_key": key, "updated_at": updated_at}


def stamp_text(stamp):
    """A stamp as messages spell it."""
    import datetime

    at = datetime.datetime(1970, 1, 1) + datetime.timedelta(microseconds=stamp)
    return at.strftime("%Y-%m-%dT%H:%M:%S.%f") + "Z"


def session_token(secret, number, generation):
    """The token of an account's generation."""
    uuid = "00000000-0000-8000-8000-%012x" % number
    return uuid + "." + hmac.new(secret, ("%s:%d" % (uuid, generation)).encode(), hashlib.sha256).hexdigest()

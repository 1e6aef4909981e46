"""Two servers of calendars that keep one file an item, as anchors for `sn serve`: radicale, which syncs each file, and
xandikos, which commits each to a repository and syncs nothing. What isn't installed is left out."""

import base64
import http.client
import os
import shutil
import socket
import subprocess
import time
import uuid as uuids

HEADERS = {"Authorization": "Basic " + base64.b64encode(b"alice:x").decode(), "Content-Type": "text/calendar"}
ENTRY = "\r\n".join(
    (
        "BEGIN:VCALENDAR",
        "VERSION:2.0",
        "PRODID:-//sn//bench//EN",
        "BEGIN:VJOURNAL",
        "UID:%s",
        "DTSTAMP:20261127T000000Z",
        "SUMMARY:note",
        "DESCRIPTION:%s",
        "END:VJOURNAL",
        "END:VCALENDAR",
        "",
    )
)
RADICALE = """[server]
hosts = 127.0.0.1:%d
[auth]
type = none
[storage]
filesystem_folder = %s
[logging]
level = error
"""


def free_port():
    with socket.create_server(("127.0.0.1", 0)) as listener:
        return listener.getsockname()[1]


def radicale(folder, port):
    path = os.path.join(folder, "radicale.conf")
    with open(path, "w") as file:
        file.write(RADICALE % (port, os.path.join(folder, "radicale")))
    return ["radicale", "--config", path], "/alice/notes/"


def xandikos(folder, port):
    words = ["xandikos", "-d", os.path.join(folder, "xandikos"), "--defaults", "-l", "127.0.0.1", "-p", str(port)]
    os.mkdir(os.path.join(folder, "xandikos"))
    return words, "/user/calendars/calendar/"


SERVERS = {"radicale": radicale, "xandikos": xandikos}


def ask(connection, method, path, body=None):
    connection.request(method, path, body=body, headers=HEADERS)
    answer = connection.getresponse()
    answer.read()
    return answer.status


def started(port):
    """A connection to the server, once it takes one."""
    for _ in range(200):
        try:
            socket.create_connection(("127.0.0.1", port), timeout=1).close()
            return http.client.HTTPConnection("127.0.0.1", port, timeout=60)
        except OSError:
            time.sleep(0.1)
    raise RuntimeError("no server came at port %d" % port)


def timed(folder, name, requests, size):
    """Seconds of a request that keeps a new item of about so many bytes, and of one that reads an item."""
    port = free_port()
    words, base = SERVERS[name](folder, port)
    process = subprocess.Popen(words, stdout=subprocess.DEVNULL, stderr=subprocess.DEVNULL)
    try:
        connection = started(port)
        ask(connection, "MKCALENDAR", base)
        names = [str(uuids.uuid4()) for _ in range(requests)]
        began = time.perf_counter()
        for each in names:
            assert ask(connection, "PUT", base + each + ".ics", (ENTRY % (each, "x" * size)).encode()) == 201
        kept = time.perf_counter() - began
        began = time.perf_counter()
        for each in names:
            assert ask(connection, "GET", base + each + ".ics") == 200
        return kept / requests, (time.perf_counter() - began) / requests
    finally:
        process.kill()
        process.wait()


def installed():
    return [name for name in SERVERS if shutil.which(name)]

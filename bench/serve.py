#!/usr/bin/env python3
"""Times `sn serve` over loopback, with its commits on a real disk, and puts the figures into RESULTS.md.

A request with a commit syncs its file twice. So beside it stands what two `fdatasync` cost on the same file system, each
after a write of as many bytes, measured in turn with it; and what a C program costs that makes the system calls of such a
request and does nothing besides (`bare_server.c`), asked by the same client. Times are by the clock.
"""

import argparse
import datetime
import json
import os
import pathlib
import random
import shutil
import socket
import subprocess
import sys
import tempfile
import time
import uuid as uuids

import calendars
import commands
import results

sys.path.insert(0, str(pathlib.Path(__file__).resolve().parent.parent / "tests"))

import serving  # noqa: E402

TITLE = "## The server"
HERE = pathlib.Path(__file__).resolve().parent

PW = "11" * 32
BAR = 1.3
SIZES = (10_000, 100_000)
# About what the two strings of an item have in these requests.
ITEM_BYTES = 1_000
# About what the body of an answer to one such item has.
BARE_ANSWER = 1_260

drawn = random.Random(20261127)


def new_items(count, size=160):
    names = (str(uuids.UUID(int=drawn.getrandbits(128), version=4)) for _ in range(count))
    return [serving.item_of(name, drawn.randbytes(size)) for name in names]


def two_syncs(folder, size):
    """Seconds of two writes, each followed by its sync, as a batch has them."""
    path = os.path.join(folder, "bare")
    file = os.open(path, os.O_CREAT | os.O_WRONLY | os.O_APPEND)
    try:
        began = time.perf_counter()
        os.write(file, b"x" * size)
        os.fdatasync(file)
        os.write(file, b"x")
        os.fdatasync(file)
        return time.perf_counter() - began
    finally:
        os.close(file)


def request(method, target, token, body=b""):
    """A request's bytes, as they go over a connection that is kept."""
    lines = ["%s %s HTTP/1.1" % (method, target), "Host: 127.0.0.1", "Content-Type: application/json"]
    if token is not None:
        lines.append("Authorization: Bearer " + token)
    lines.append("Content-Length: %d" % len(body))
    return "\r\n".join([*lines, "", ""]).encode() + body


def exchanged(connection, sent):
    """Seconds from the first byte of a request to the last of its answer, and the answer's status and body."""
    began = time.perf_counter()
    connection.sendall(sent)
    read = b""
    while b"\r\n\r\n" not in read:
        read += connection.recv(1 << 20)
    head, body = read.split(b"\r\n\r\n", 1)
    size = int(head.lower().split(b"content-length:")[1].split()[0])
    while len(body) < size:
        body += connection.recv(1 << 20)
    return time.perf_counter() - began, int(head.split()[1]), body


def timed_syncs(client, folder, requests, count):
    """Seconds a request, and seconds of two bare syncs, of requests with so many new items each, as a device sends them: it
    has all items that came before. Neither the making of a request nor the reading of its answer's JSON is timed."""
    asked, bare = 0.0, 0.0
    token = client.sync()[1]["sync_token"]
    with socket.create_connection(("127.0.0.1", client.port)) as connection:
        connection.setsockopt(socket.IPPROTO_TCP, socket.TCP_NODELAY, 1)
        for _ in range(requests):
            body = json.dumps({"api": "20190520", "items": new_items(count), "sync_token": token}).encode()
            took, status, read = exchanged(connection, request("POST", "/items/sync", client.token, body))
            given = json.loads(read)
            assert status == 200 and len(given["saved_items"]) == count
            token = given["sync_token"]
            asked += took
            bare += two_syncs(folder, count * ITEM_BYTES)
    return asked / requests, bare / requests


def timed_bare(folder, requests, written):
    """Seconds a request, and seconds of two bare syncs, of a program that reads a request, writes and syncs twice, and sends
    an answer of as many bytes; nothing where there is no C compiler."""
    if shutil.which("cc") is None:
        print("bench: the bare server is skipped, since there is no C compiler", file=sys.stderr)
        return None
    program = os.path.join(folder, "bare_server")
    subprocess.run(["cc", "-O2", "-o", program, str(HERE / "bare_server.c")], check=True)
    sent = request("POST", "/items/sync", "0" * 64, json.dumps({"api": "20190520", "items": new_items(1), "sync_token": "0" * 24}).encode())
    asked, bare = 0.0, 0.0
    command = [program, os.path.join(folder, "bare-store"), str(written), str(BARE_ANSWER)]
    with subprocess.Popen(command, stdout=subprocess.PIPE, text=True) as server:
        with socket.create_connection(("127.0.0.1", int(server.stdout.readline()))) as connection:
            connection.setsockopt(socket.IPPROTO_TCP, socket.TCP_NODELAY, 1)
            for _ in range(requests):
                asked += exchanged(connection, sent)[0]
                bare += two_syncs(folder, written)
    return asked / requests, bare / requests


def timed_reads(client, requests):
    took = 0.0
    with socket.create_connection(("127.0.0.1", client.port)) as connection:
        for _ in range(requests):
            seconds, status, _ = exchanged(connection, request("GET", "/auth/params?email=alice", None))
            assert status == 200
            took += seconds
    return took / requests


def filled(store, count):
    """A store with so many items."""
    with serving.Served(store) as server:
        client = serving.Client(server.port, keeps=True)
        client.register("alice", PW)
        for _ in range(count // 500):
            assert client.sync(new_items(500))[0] == 200


def timed_start(store):
    began = time.perf_counter()
    with serving.Served(store) as server:
        took = time.perf_counter() - began
        assert server.port is not None
    return took, os.path.getsize(store)


def measured(folder, requests):
    lines = ["| what | ms | a second | two bare syncs, ms | ratio | bar |", "|---|---|---|---|---|---|"]
    store = os.path.join(folder, "server")
    with serving.Served(store) as server:
        client = serving.Client(server.port)
        client.register("alice", PW)
        for count in (1, 150):
            asked, bare = timed_syncs(client, folder, requests, count)
            met = "≤ %.1f, %s" % (BAR, "met" if asked / bare <= BAR else "not met")
            row = (count, asked * 1e3, 1 / asked, bare * 1e3, asked / bare, met if count == 1 else "")
            lines.append("| a sync of %d new items | %.2f | %.0f | %.2f | %.2f | %s |" % row)
        least = timed_bare(folder, requests, ITEM_BYTES)
        if least:
            asked, bare = least
            row = (asked * 1e3, 1 / asked, bare * 1e3, asked / bare)
            lines.append("| a C program, the system calls of a sync of 1 new item alone | %.2f | %.0f | %.2f | %.2f | |" % row)
        read = timed_reads(client, 10 * requests)
        lines.append("| parameters, without a commit | %.2f | %.0f | | | |" % (read * 1e3, 1 / read))
    for name in calendars.installed():
        kept, read = calendars.timed(folder, name, requests, ITEM_BYTES)
        lines.append("| %s: a new item | %.2f | %.0f | | | |" % (name, kept * 1e3, 1 / kept))
        lines.append("| %s: an item read | %.2f | %.0f | | | |" % (name, read * 1e3, 1 / read))
    lines += ["", "| items in the store | bytes | start, ms |", "|---|---|---|"]
    for count in SIZES:
        path = os.path.join(folder, "server-%d" % count)
        filled(path, count)
        took, size = min(timed_start(path) for _ in range(3))
        lines.append("| %d | %d | %.0f |" % (count, size, took * 1e3))
    return lines


def main():
    parser = argparse.ArgumentParser()
    parser.add_argument("--requests", type=int, default=300)
    parser.add_argument("--folder", help="where the stores are made; its file system is what is measured")
    options = parser.parse_args()
    with tempfile.TemporaryDirectory(dir=options.folder) as folder:
        lines = measured(folder, options.requests)
    head = "%s, %s, Python %s; %d requests each, load average %.1f." % (
        datetime.date.today(),
        commands.machine(),
        sys.version.split()[0],
        options.requests,
        os.getloadavg()[0],
    )
    text = "\n".join([TITLE, "", head, "", *lines, ""])
    print(text)
    results.put(text)


if __name__ == "__main__":
    main()

#!/usr/bin/env python3
"""Times the server's rules at a sync, beside a model of them in Python and the same looks into sqlite3 in memory.

Each number of items has a process of its own. What is timed is the difference of two calls that make the same state, so
that the making isn't in it; the shortest of each counts. Times are of the processor, and not by the clock.
"""

import argparse
import base64
import ctypes
import datetime
import json
import os
import pathlib
import random
import sqlite3
import struct
import subprocess
import sys
import time

import results

sys.path.insert(0, str(pathlib.Path(__file__).resolve().parent.parent / "tests"))

import independent
import rule

TITLE = "## The server's rules"

SIZES = [10_000, 100_000]
PAGE = 150
SECRET = bytes(range(32))

drawn = random.Random(20261128)


def uuid_of(number):
    return "00000000-0000-4000-8000-%012x" % number


def string_of(number):
    """A 003 string of the length of a short note's content."""
    part = independent.params_part("a", 110_000, "n")
    ciphertext = base64.b64encode(drawn.randbytes(160)).decode()
    return ":".join(["003", drawn.randbytes(32).hex(), uuid_of(number), drawn.randbytes(16).hex(), ciphertext, part])


def item_of(number, known=None):
    return {"uuid": uuid_of(number), "content_type": "Note", "content": string_of(number), "enc_item_key": string_of(number), "updated_at": known}


def counted(data):
    return struct.pack(">I", len(data)) + data


def spelled(route, token, text, now):
    return bytes([rule.ROUTES.index(route)]) + struct.pack(">Q", now) + counted(token.encode()) + counted(text.encode())


def sync_text(items, **more):
    return json.dumps({"api": "20190520", "items": items, **more})


def history(size):
    """The requests that make an account with so many items, and the model after them."""
    server = rule.Server(SECRET)
    asked = {"email": "a", "password": "01" * 32, "pw_cost": 110_000, "pw_nonce": "n", "version": "003"}
    requests = [("register", "", json.dumps(asked), 0)]
    server.handle(*requests[0])
    token = server.token(1)
    for first in range(1, size + 1, 500):
        items = [item_of(number) for number in range(first, min(first + 500, size + 1))]
        text = sync_text(items, sync_token=rule.token_text(rule.LAST_STAMP))
        requests.append(("sync", token, text, 1_700_000_000_000_000))
        server.handle(*requests[-1])
    return server, token, requests


class Proved:
    def __init__(self, path, requests, rounds):
        self.function = ctypes.CDLL(path).sn_bench_answer_again
        self.function.restype = ctypes.c_uint64
        self.requests = b"".join(spelled(*request) for request in requests)
        self.rounds = rounds

    def call(self, request, times):
        asked = spelled(*request)
        least = None
        for _ in range(self.rounds):
            begun = time.thread_time()
            size = ctypes.c_size_t(len(self.requests))
            answer = self.function(SECRET, self.requests, size, asked, ctypes.c_size_t(len(asked)), ctypes.c_uint64(times))
            took = time.thread_time() - begun
            if answer == 2**64 - 1:
                sys.exit("a request wasn't read, or memory was wanting")
            least = took if least is None else min(least, took)
        return least

    def answer(self, request, times):
        """Seconds of one answer."""
        return (self.call(request, times + 1) - self.call(request, 1)) / times


def seconds_of(function, times):
    begun = time.thread_time()
    for _ in range(times):
        function()
    return (time.thread_time() - begun) / times


class Sqlite:
    """The items in a table in sqlite3's memory, with an index on account and stamp."""

    def __init__(self, server):
        self.store = sqlite3.connect(":memory:", isolation_level=None)
        columns = "uuid TEXT PRIMARY KEY, account INTEGER, kind TEXT, created INTEGER, updated INTEGER, deleted INTEGER, content TEXT, enc TEXT"
        self.store.execute(f"CREATE TABLE items ({columns}) WITHOUT ROWID")
        self.store.execute("CREATE UNIQUE INDEX stamps ON items (account, updated)")
        rows = [
            (uuid, item.account, item.kind, item.created, item.updated, item.deleted, item.content, item.enc)
            for uuid, item in server.items.items()
        ]
        self.store.executemany("INSERT INTO items VALUES (?, ?, ?, ?, ?, ?, ?, ?)", rows)
        self.last = server.last

    def page(self, above):
        query = "SELECT * FROM items WHERE account = 1 AND updated > ? ORDER BY updated LIMIT ?"
        return self.store.execute(query, (above, PAGE + 1)).fetchall()

    def sync(self, items, above):
        """The looks and writes of a sync, taken back at its end."""
        self.store.execute("BEGIN")
        self.page(above)
        stamp = self.last
        for item in items:
            found = self.store.execute("SELECT * FROM items WHERE uuid = ?", (item["uuid"],)).fetchone()
            stamp += 1
            created = stamp if found is None else found[3]
            row = (item["uuid"], 1, item["content_type"], created, stamp, False, item["content"], item["enc_item_key"])
            self.store.execute("INSERT OR REPLACE INTO items VALUES (?, ?, ?, ?, ?, ?, ?, ?)", row)
        self.store.execute("SELECT max(updated) FROM items WHERE account = 1").fetchone()
        self.store.execute("ROLLBACK")


def measure(path, size, rounds):
    server, token, requests = history(size)
    proved, sqlite = Proved(path, requests, rounds), Sqlite(server)
    last, above = server.last, server.last - PAGE
    new = [item_of(size + number) for number in range(1, PAGE + 1)]
    changed = [item_of(number, rule.stamp_text(server.items[uuid_of(number)].updated)) for number in range(1, PAGE + 1)]
    now = 1_700_000_000_000_000
    asked = {
        "new": ("sync", token, sync_text(new, sync_token=rule.token_text(last)), now),
        "changed": ("sync", token, sync_text(changed, sync_token=rule.token_text(last)), now),
        "page": ("sync", token, sync_text([], sync_token=rule.token_text(above), limit=PAGE), now),
    }
    figures = {"items": size}
    for name, request in asked.items():
        figures[name] = proved.answer(request, 20)

        def model():
            before = server.last, dict(server.items)
            server.handle(*request)
            server.last, server.items = before

        copying = seconds_of(lambda: dict(server.items), 5)
        figures[name + "_model"] = seconds_of(model, 5) - 2 * copying
    figures["new_sqlite"] = seconds_of(lambda: sqlite.sync(new, last), 20)
    figures["changed_sqlite"] = seconds_of(lambda: sqlite.sync(changed, last), 20)
    figures["page_sqlite"] = seconds_of(lambda: sqlite.page(above), 20)
    return figures


def run(path, size, rounds):
    command = [sys.executable, __file__, "--library", path, "--rounds", str(rounds), "--worker", str(size)]
    return json.loads(subprocess.run(command, check=True, stdout=subprocess.PIPE, text=True).stdout)


def time_of(seconds):
    for unit, size in (("s", 1), ("ms", 1e-3), ("us", 1e-6)):
        if seconds >= size:
            return f"{seconds / size:.2f} {unit}"
    return f"{seconds * 1e9:.0f} ns"


LINES = [
    (f"a sync of {PAGE} new items", "new"),
    (f"a sync of {PAGE} changed items", "changed"),
    (f"a page of {PAGE} items, the last", "page"),
]


def section(figures, rounds):
    now = datetime.datetime.now(datetime.timezone.utc).strftime("%Y-%m-%d %H:%M")
    sizes = " | ".join(f"of {size:,} items" for size in SIZES)
    lines = [
        TITLE,
        "",
        f"What a sync changes and what is answered to it, {now} UTC, Python {sys.version.split()[0]}, SQLite {sqlite3.sqlite_version}, "
        f"load average {os.getloadavg()[0]:.1f}; processor time, the least of {rounds} rounds, the others' once. The proved rule "
        "reads no message and writes none; the model reads the request's JSON and writes the answer's. sqlite3 looks the items and the "
        "page up by an index and writes the rows, and compares nothing.",
        "",
        f"| what | {sizes} |",
        "|---|" + "---|" * len(SIZES),
    ]
    for name, figure in LINES:
        lines.append(f"| {name} | " + " | ".join(time_of(size[figure]) for size in figures) + " |")
        lines.append("| the same by a Python model | " + " | ".join(time_of(size[figure + "_model"]) for size in figures) + " |")
        lines.append("| the same by sqlite3 | " + " | ".join(time_of(size[figure + "_sqlite"]) for size in figures) + " |")
    return "\n".join(lines) + "\n"


def main():
    options = argparse.ArgumentParser(description=__doc__)
    options.add_argument("--library", required=True)
    options.add_argument("--rounds", type=int, default=3)
    options.add_argument("--worker", type=int)
    given = options.parse_args()
    if given.worker:
        print(json.dumps(measure(given.library, given.worker, given.rounds)))
        return
    text = section([run(given.library, size, given.rounds) for size in SIZES], given.rounds)
    print(text)
    results.put(text)


if __name__ == "__main__":
    main()

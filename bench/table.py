#!/usr/bin/env python3
"""Times a server's table of rows on a disk in memory, beside sqlite3 in memory and Python's own dict and sorted list.

Each number of rows has a process of its own. What is timed is the difference of two calls that load the same file, so
that the loading isn't in it; the shortest of each counts. Times are of the processor, and not by the clock.
"""

import argparse
import bisect
import ctypes
import datetime
import json
import os
import random
import sqlite3
import struct
import subprocess
import sys
import time

import results

TITLE = "## The table"

SIZES = [1_000, 100_000, 1_000_000]
BATCH = 1_000
LOOKUPS = 1_000_000
CHANGES = 200_000
STORE, ACCOUNT, GENERATION, ITEM = 1, 2, 3, 4

drawn = random.Random(20261127)


def counted(text):
    return struct.pack(">I", len(text)) + text


def put(kind, key, value):
    return bytes((1, kind)) + counted(key) + counted(value)


def item_value(account):
    """The value of an item whose two strings together have 160 bytes."""
    content = drawn.randbytes(50).hex().encode()
    key = drawn.randbytes(30).hex().encode()
    stamps = struct.pack(">QQB", 1_700_000_000_000_000, 1_700_000_000_000_000 + drawn.randrange(10**9), 0)
    return struct.pack(">Q", account) + counted(b"Note") + stamps + counted(content) + counted(key)


def rows_of(count):
    """One store, an account in a hundred rows, two generations to each, and items."""
    accounts = count // 100
    rows = [(STORE, b"", drawn.randbytes(32) + struct.pack(">QQ", 1_700_000_000_000_000, accounts))]
    for account in range(1, accounts + 1):
        number = struct.pack(">Q", account)
        identifier = counted(b"user%d@example.org" % account)
        rows.append((ACCOUNT, number, identifier + struct.pack(">Q", 2) + drawn.randbytes(32)))
        for generation in (1, 2):
            cost_and_nonce = struct.pack(">I", 110_000) + counted(drawn.randbytes(32).hex().encode())
            rows.append((GENERATION, number + struct.pack(">Q", generation), cost_and_nonce))
    while len(rows) < count:
        rows.append((ITEM, drawn.randbytes(16), item_value(drawn.randint(1, accounts))))
    drawn.shuffle(rows)
    return rows


def file_of(rows):
    """The journal of these rows, in batches."""
    parts = [b"SNSYNC-JOURNALS1"]
    for first in range(0, len(rows), BATCH):
        payload = b"".join(put(*row) for row in rows[first : first + BATCH])
        parts += [b"\x01", counted(payload)]
    return b"".join(parts) + b"\0"


class Proved:
    """The proved table, each call of which loads the file first."""

    def __init__(self, path, file, rounds):
        self.library = ctypes.CDLL(path)
        self.file = file
        self.rounds = rounds
        self.once = 0.0

    def call(self, name, wanted, *given):
        """The shortest time of a call. Ends where an answer isn't as it should be."""
        function = getattr(self.library, name)
        function.restype = ctypes.c_uint64
        least = None
        for _ in range(self.rounds):
            begun = time.thread_time()
            answer = function(self.file, ctypes.c_size_t(len(self.file)), *given)
            took = time.thread_time() - begun
            if answer != wanted:
                sys.exit(f"{name} answered {answer}, wanted {wanted}")
            least = took if least is None else min(least, took)
        return least

    def load_once(self):
        """Loads it for the first time. What one loading takes is taken off all that follows."""
        self.once = self.call("sn_bench_load_table", 1, ctypes.c_uint64(1))

    def load(self):
        """Seconds of one loading, by what two more take."""
        return (self.call("sn_bench_load_table", 3, ctypes.c_uint64(3)) - self.once) / 2

    def get(self, uuids, rounds):
        """Seconds of one look-up."""
        count = len(uuids) // 16 * rounds
        took = self.call("sn_bench_get_rows", count, uuids, ctypes.c_size_t(len(uuids)), ctypes.c_uint64(rounds))
        return (took - self.once) / count

    def range(self, kind, rows, ranges):
        """Seconds of one range, which has so many rows."""
        took = self.call("sn_bench_range_rows", rows * ranges, ctypes.c_ubyte(kind), ctypes.c_uint64(ranges))
        return (took - self.once) / ranges

    def commits(self, payload, count):
        """Seconds of one commit of 1 change, and of one of a thousand, by commits of so many changes in all.

        The first commit, at which the disk's memory grows, is left out.
        """
        size = ctypes.c_size_t(len(payload))
        first, ones, many = (
            self.call("sn_bench_commit_rows", n, payload, size, ctypes.c_uint64(changes), ctypes.c_uint64(n))
            for changes, n in ((1, 1), (1, count), (BATCH, count // BATCH))
        )
        return (ones - first) / (count - 1), (many - first) / (count - 1) * BATCH


def seconds_of(function):
    begun = time.thread_time()
    function()
    return time.thread_time() - begun


class Sqlite:
    """A table in sqlite3's memory, as it comes."""

    UPSERT = "INSERT OR REPLACE INTO rows VALUES (?, ?, ?)"

    def __init__(self, rows):
        self.store = sqlite3.connect(":memory:", isolation_level=None)
        self.store.execute("CREATE TABLE rows (kind INTEGER, key BLOB, value BLOB, PRIMARY KEY (kind, key)) WITHOUT ROWID")
        self.load = seconds_of(lambda: self.commit_all(rows, len(rows)))

    def commit_all(self, rows, size):
        for first in range(0, len(rows), size):
            self.store.execute("BEGIN")
            self.store.executemany(self.UPSERT, rows[first : first + size])
            self.store.execute("COMMIT")

    def get(self, uuids):
        execute = self.store.execute
        query = "SELECT value FROM rows WHERE kind = 4 AND key = ?"
        return seconds_of(lambda: [execute(query, (uuid,)).fetchone() for uuid in uuids]) / len(uuids)

    def range(self, kind, ranges):
        query = "SELECT key, value FROM rows WHERE kind = ? ORDER BY key"
        return seconds_of(lambda: [self.store.execute(query, (kind,)).fetchall() for _ in range(ranges)]) / ranges

    def commit(self, changes, size):
        return seconds_of(lambda: self.commit_all(changes, size)) / (len(changes) // size)


def own_get(rows, uuids):
    """Seconds of one look-up in a dict, and of one in a sorted list."""
    values = {key: value for kind, key, value in rows if kind == ITEM}
    keys = sorted(values)
    by_dict = seconds_of(lambda: [values[uuid] for uuid in uuids]) / len(uuids)
    place_of = bisect.bisect_left
    by_list = seconds_of(lambda: [keys[place_of(keys, uuid)] == uuid for uuid in uuids]) / len(uuids)
    return by_dict, by_list


def memory_of(name):
    """A figure of the process's memory, in MiB."""
    with open("/proc/self/status") as status:
        return int(next(line for line in status if line.startswith(name)).split()[1]) / 1024


def added_peak(function):
    """What a call adds to the memory of the process at its peak, in MiB."""
    with open("/proc/self/clear_refs", "w") as peak:
        peak.write("5")
    before = memory_of("VmRSS")
    function()
    return memory_of("VmHWM") - before


def measure(path, count, rounds):
    """All figures of a table of so many rows, in seconds and MiB."""
    rows = rows_of(count)
    file = file_of(rows)
    uuids = [key for kind, key, _ in rows if kind == ITEM]
    asked = drawn.choices(uuids, k=LOOKUPS)
    changes = [(ITEM, uuid, item_value(1)) for uuid in drawn.choices(uuids, k=CHANGES)]
    payload = b"".join(put(*change) for change in changes)
    accounts = count // 100
    proved = Proved(path, file, rounds)
    figures = {"rows": count, "bytes": len(file), "peak": added_peak(proved.load_once), "load": proved.load()}
    figures["get"] = proved.get(b"".join(asked), 2)
    figures["store"] = proved.range(STORE, 1, 20_000_000)
    figures["accounts"] = proved.range(ACCOUNT, accounts, 4_000_000 // accounts)
    figures["commit_one"], figures["commit_many"] = proved.commits(payload, CHANGES)
    sqlite = Sqlite(rows)
    figures["sqlite"] = {
        "load": sqlite.load,
        "get": sqlite.get(asked[: LOOKUPS // 10]),
        "store": sqlite.range(STORE, 50_000),
        "accounts": sqlite.range(ACCOUNT, max(1, 200_000 // accounts)),
        "commit_one": sqlite.commit(changes[: CHANGES // 4], 1),
        "commit_many": sqlite.commit(changes, BATCH),
    }
    figures["dict"], figures["list"] = own_get(rows, asked)
    return figures


def measure_load(path, count, rounds):
    """The figures of a load alone."""
    file = file_of(rows_of(count))
    proved = Proved(path, file, rounds)
    return {"bytes": len(file), "peak": added_peak(proved.load_once), "load": proved.load()}


def run(path, count, rounds, *options):
    command = [sys.executable, __file__, "--library", path, "--rounds", str(rounds), "--worker", str(count), *options]
    return json.loads(subprocess.run(command, check=True, stdout=subprocess.PIPE, text=True).stdout)


def time_of(seconds):
    if seconds <= 0:
        return "lost in the loading"
    for unit, size in (("s", 1), ("ms", 1e-3), ("us", 1e-6)):
        if seconds >= size:
            return f"{seconds / size:.2f} {unit}"
    return f"{seconds * 1e9:.0f} ns"


# name, and what of the figures it is
LINES = [
    ("load", "load"),
    ("get an item", "get"),
    ("range of one row, the store", "store"),
    ("range of the accounts, one in a hundred rows", "accounts"),
    ("commit of 1 change", "commit_one"),
    ("commit of 1,000 changes", "commit_many"),
]


def section(figures, rounds):
    now = datetime.datetime.now(datetime.timezone.utc).strftime("%Y-%m-%d %H:%M")
    sizes = " | ".join(f"{count:,} rows" for count in SIZES)
    peaks = ", ".join(f"{size['peak']:.1f} MiB at {size['rows']:,} rows, whose file has {size['bytes'] / 2**20:.1f} MiB" for size in figures)
    lines = [
        TITLE,
        "",
        f"A server's table on a disk in memory, {now} UTC, Python {sys.version.split()[0]}, SQLite {sqlite3.sqlite_version}, "
        f"load average {os.getloadavg()[0]:.1f}; processor time, the least of {rounds} rounds, the others' once. A thousand rows "
        "are one batch. A load adds at its peak the bytes of the disk in memory twice, the file read, its payloads and the "
        f"rows: {peaks}.",
        "",
        f"| what | {sizes} |",
        "|---|" + "---|" * len(SIZES),
    ]
    for name, figure in LINES:
        lines.append(f"| {name} | " + " | ".join(time_of(size[figure]) for size in figures) + " |")
        lines.append("| the same by sqlite3 | " + " | ".join(time_of(size["sqlite"][figure]) for size in figures) + " |")
        if figure == "get":
            for other in ("dict", "list"):
                named = "a `dict`" if other == "dict" else "`bisect` in a sorted list"
                lines.append(f"| the same by Python, {named} | " + " | ".join(time_of(size[other]) for size in figures) + " |")
    return "\n".join(lines) + "\n"


def least(figures):
    return {name: min(one[name] for one in figures) for name in figures[0]}


def beside_before(path, before, rounds):
    """A load of the most rows by this library and by one that was built before a change, in turns."""
    turns = [(run(before, SIZES[-1], 1, "--load"), run(path, SIZES[-1], 1, "--load")) for _ in range(rounds)]
    old, new = (least(figures) for figures in zip(*turns))
    size = new["bytes"] / 2**20
    lines = [
        "",
        "Beside it, in turns of one run, a library that was built before a row's value took memory for what it holds alone, and before the journal lent its "
        f"payloads; the least of {rounds} rounds each. The peak is without the disk in memory twice.",
        "",
        f"| a load of {SIZES[-1]:,} rows, file of {size:.1f} MiB | before | after | bar |",
        "|---|---|---|---|",
        f"| time | {old['load']:.2f} s | {new['load']:.2f} s, {new['load'] / old['load']:.2f} of it | ≤ 0.6 |",
        f"| peak | {old['peak'] - 2 * size:.1f} MiB, {old['peak'] / size - 2:.1f} times the file | {new['peak'] - 2 * size:.1f} MiB, "
        f"{new['peak'] / size - 2:.1f} times | ≤ 3 times |",
        f"| of these the rows, which are what the file read leaves | not told apart from the payloads | {new['peak'] - 3 * size:.1f} MiB, "
        f"{new['peak'] / size - 3:.2f} times | ≤ 1.5 times |",
        "",
        "The rows of this file come in a random order of keys. In ascending order, which leaves a map's nodes half full, they were not measured.",
    ]
    return "\n".join(lines) + "\n"


def main():
    options = argparse.ArgumentParser(description=__doc__)
    options.add_argument("--library", required=True)
    options.add_argument("--before", help="a library of an earlier state, whose loads are timed beside")
    options.add_argument("--rounds", type=int, default=3)
    options.add_argument("--worker", type=int)
    options.add_argument("--load", action="store_true")
    given = options.parse_args()
    if given.worker:
        print(json.dumps((measure_load if given.load else measure)(given.library, given.worker, given.rounds)))
        return
    text = section([run(given.library, count, given.rounds) for count in SIZES], given.rounds)
    if given.before:
        text += beside_before(given.library, given.before, given.rounds)
    print(text)
    results.put(text)


if __name__ == "__main__":
    main()

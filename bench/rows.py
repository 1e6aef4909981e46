#!/usr/bin/env python3
"""Times rows read from their bytes and written, beside Python's reading of the same bytes by `struct`.

Each round reads and writes in turn, in one process on one processor; the shortest time of each counts. Writing is timed
by what two writings more take.
"""

import argparse
import ctypes
import datetime
import os
import random
import struct
import sys
import time

import results

TITLE = "## Rows"
COUNT = 100_000

drawn = random.Random(20261126)


def counted(text):
    return struct.pack(">I", len(text)) + text


def sealed_text():
    """A text of the length of a short note's content."""
    return b"003:" + drawn.randbytes(150).hex().encode()


def item_row(number):
    key = drawn.randbytes(16)
    value = struct.pack(">Q", number % 100) + counted(b"Note") + struct.pack(">QQB", 1_700_000_000_000_000, 1_700_000_000_000_000 + number, 0)
    return b"\x01\x04" + counted(key) + counted(value + counted(sealed_text()) + counted(sealed_text()))


def local_row(number):
    key = struct.pack(">Q", number)
    body = b"\x02" + counted(sealed_text()) + counted(sealed_text())
    value = drawn.randbytes(16) + counted(b"Note") + struct.pack(">BQB", 1, 1_700_000_000_000_000 + number, 0)
    return b"\x01\x13" + counted(key) + counted(value + body + b"\x00\x00")


# name, the bytes of a row by its number
RUNS = [("kind 4", item_row), ("kind 19", local_row)]

head = struct.Struct(">BBI")
four = struct.Struct(">I")
eight = struct.Struct(">Q")
stamps = struct.Struct(">QQB")
base = struct.Struct(">BQB")


def text_at(data, place):
    (length,) = four.unpack_from(data, place)
    end = place + 4 + length
    return data[place + 4 : end].decode(), end


def body_at(data, place):
    tag = data[place]
    if tag == 0:
        return None, place + 1
    if tag == 1:
        return "deleted", place + 1
    content, place = text_at(data, place + 1)
    enc, place = text_at(data, place)
    return (content, enc), place


def item_at(data, place):
    (account,) = eight.unpack_from(data, place)
    kind, place = text_at(data, place + 8)
    created, updated, deleted = stamps.unpack_from(data, place)
    content, place = text_at(data, place + 17)
    enc, place = text_at(data, place)
    return (account, kind, created, updated, deleted == 1, content, enc), place


def local_at(data, place):
    uuid = data[place : place + 16]
    kind, place = text_at(data, place + 16)
    has_base, stamp, stale = base.unpack_from(data, place)
    body, place = body_at(data, place + 10)
    latest, place = body_at(data, place)
    posted, place = body_at(data, place)
    return (uuid, kind, stamp if has_base else None, stale == 1, body, latest, posted), place


def read_by_struct(data):
    """The puts of a payload of rows of kinds 4 and 19."""
    rows, place = [], 0
    while place < len(data):
        _, kind, length = head.unpack_from(data, place)
        key = data[place + 6 : place + 6 + length]
        place += 6 + length
        (length,) = four.unpack_from(data, place)
        value, end = (item_at if kind == 4 else local_at)(data, place + 4)
        if end != place + 4 + length:
            sys.exit("a value of another length")
        place = end
        rows.append((kind, key, value))
    return rows


def seconds_of(function, *given):
    begun = time.perf_counter()
    answer = function(*given)
    return time.perf_counter() - begun, answer


def measure(library, payload, rounds):
    """The shortest times of reading, of writing and of Python's reading. Ends where an answer isn't as it should be."""
    size = ctypes.c_size_t(len(payload))
    reads, once, thrice, by_struct = [], [], [], []
    for _ in range(rounds):
        for times, answer, wanted in (
            (reads, seconds_of(library.sn_bench_read_rows, payload, size), COUNT),
            (once, seconds_of(library.sn_bench_write_rows, payload, size, ctypes.c_uint64(1)), len(payload)),
            (thrice, seconds_of(library.sn_bench_write_rows, payload, size, ctypes.c_uint64(3)), len(payload)),
        ):
            if answer[1] != wanted:
                sys.exit(f"answered {answer[1]}, wanted {wanted}")
            times.append(answer[0])
        took, rows = seconds_of(read_by_struct, payload)
        if len(rows) != COUNT:
            sys.exit(f"{len(rows)} rows by struct")
        by_struct.append(took)
    return min(reads), (min(thrice) - min(once)) / 2, min(by_struct)


def table(library, rounds):
    now = datetime.datetime.now(datetime.timezone.utc).strftime("%Y-%m-%d %H:%M")
    lines = [
        TITLE,
        "",
        f"{COUNT:,} rows in one payload, {now} UTC, Python {sys.version.split()[0]}, load average {os.getloadavg()[0]:.1f}, "
        f"the least of {rounds} rounds. MB are 10^6 bytes of the payload. Python reads it by `struct`, with its texts "
        "decoded and with no other check.",
        "",
        "| rows | bytes a row | read | write | Python, read by `struct` | ratio of the readings |",
        "|---|---|---|---|---|---|",
    ]
    for name, row in RUNS:
        payload = b"".join(row(number) for number in range(COUNT))
        figures = measure(library, payload, rounds)
        told = [f"{len(payload) / 1e6 / took:.0f} MB/s, {took / COUNT * 1e9:.0f} ns a row" for took in figures]
        lines.append(f"| {name} | {len(payload) // COUNT} | {' | '.join(told)} | {figures[2] / figures[0]:.2f} |")
    return "\n".join(lines) + "\n"


def main():
    options = argparse.ArgumentParser(description=__doc__)
    options.add_argument("--library", required=True)
    options.add_argument("--rounds", type=int, default=5)
    given = options.parse_args()
    library = ctypes.CDLL(given.library)
    library.sn_bench_read_rows.restype = ctypes.c_uint64
    library.sn_bench_write_rows.restype = ctypes.c_uint64
    text = table(library, given.rounds)
    print(text)
    results.put(text)


if __name__ == "__main__":
    main()

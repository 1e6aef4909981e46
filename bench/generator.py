#!/usr/bin/env python3
"""Times `sn gen` of one number on scripts of a thousand events and more, with its peak memory, and puts the figures into
RESULTS.md.

Each time is the least of some rounds, in processor time, less that of the shortest script. An event is a line of the
script but its settings: a put, an edit or a sync of one of two devices, at cost 1. Before each round of the longest
script OpenSSL's SHA-256 is timed, which needs no memory: its speed tells how much of a processor others left.
"""

import argparse
import datetime
import hashlib
import pathlib
import statistics
import sys
import tempfile
import time

import commands
import results

TITLE = "## Scripts from a number"
NUMBER = 7
COUNTS = (1000, 10000, 100000)
BAR = 20000
HASHED = bytes(16 << 20)


def words(count):
    return ["gen", "--number", str(NUMBER), "--count", str(count)]


def summary(text):
    return {word: int(number) for word, number in (line.split(" ") for line in text.splitlines())}


def hashing_speed():
    """Megabytes a second of OpenSSL's SHA-256."""
    began = time.process_time()
    hashlib.sha256(HASHED).digest()
    return len(HASHED) / 1e6 / (time.process_time() - began)


def best_of(rounds, count, nothing, out):
    """The least seconds with their peak, and the speed of hashing before each round."""
    best, speeds = None, []
    for _ in range(rounds):
        speeds.append(hashing_speed())
        seconds, peak, status = commands.run(words(count), nothing, out)
        assert status == 0, count
        best = min(best or (seconds, peak), (seconds, peak))
    return best, speeds


def measured(scratch, rounds):
    out, nothing = scratch / "out", scratch / "nothing"
    nothing.write_bytes(b"")
    (start, _), _ = best_of(rounds, 1, nothing, out)
    rows = []
    for count in COUNTS:
        (seconds, peak), speeds = best_of(rounds, count, nothing, out)
        found = summary(out.read_text())
        assert found["events"] == count + 5 and found["drafts"] == 0
        rows.append((count, found, max(seconds - start, 1e-9), peak))
    return rows, speeds


def table(rows):
    lines = ["| events | versions | seconds | events a second | peak memory, MB | an event's time beside that of the shortest |", "|---|---|---|---|---|---|"]
    first = rows[0][2] / rows[0][0]
    for count, found, seconds, peak in rows:
        lines.append(
            "| %d | %d | %.2f | %.0f | %.0f | %.2f |" % (count, found["versions"], seconds, count / seconds, peak / 1024, seconds / count / first)
        )
    return lines


def verdict(rows):
    count, _, seconds, _ = rows[-1]
    reached = count / seconds
    return "Bar: at least %d events a second at %d. %s: %.0f." % (BAR, count, "Met" if reached >= BAR else "Missed", reached)


def main():
    parser = argparse.ArgumentParser()
    parser.add_argument("--rounds", type=int, default=15)
    options = parser.parse_args()
    with tempfile.TemporaryDirectory() as scratch:
        rows, speeds = measured(pathlib.Path(scratch), options.rounds)
    head = "%s, %s, Python %s; number %d, least of %d rounds. OpenSSL's SHA-256 before those of the longest: %.0f to %.0f MB/s, in the middle %.0f." % (
        datetime.date.today(),
        commands.machine(),
        sys.version.split()[0],
        NUMBER,
        options.rounds,
        min(speeds),
        max(speeds),
        statistics.median(speeds),
    )
    text = "\n".join([TITLE, "", head, ""] + table(rows) + ["", verdict(rows), ""])
    print(text)
    results.put(text)


if __name__ == "__main__":
    main()

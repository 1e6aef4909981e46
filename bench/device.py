#!/usr/bin/env python3
"""Times a device's commands against `sn serve` over loopback, with both stores on a real disk, and puts the figures into
RESULTS.md.

Each figure is of whole commands: the start of the process, the load of the store, the work, its commits, and the end. So
beside it stand the start of the program alone, and the commits' syncs bare. The anchors are radicale and xandikos, which
keep an item as an entry of a calendar, one a request. Times are by the clock.
"""

import argparse
import datetime
import os
import pathlib
import subprocess
import sys
import tempfile
import time

import calendars
import commands
import results
import serve

sys.path.insert(0, str(pathlib.Path(__file__).resolve().parent.parent / "tests"))

import devices  # noqa: E402
import program  # noqa: E402
import serving  # noqa: E402

TITLE = "## A device"

PASSWORD = "one password for both"
BATCH = 150
NOTES = 1_000
# How many times as fast as the faster of the anchors a push and a pull are to be.
BAR = 10
# About what a note has whose strings have the bytes that serve.py takes for an item's.
TEXT_BYTES = 160


def note(number):
    return '{"references":[],"text":"%s","title":"note %d"}' % ("x" * TEXT_BYTES, number)


def timed(run):
    began = time.perf_counter()
    run()
    return time.perf_counter() - began


def starts(count):
    """Seconds of the start and the end of the program alone."""
    run = lambda: subprocess.run([program.SN, "--version"], stdout=subprocess.DEVNULL, check=True)  # noqa: E731
    return sum(timed(run) for _ in range(count)) / count


def account(folder, port):
    """Two devices of one account."""
    those = [devices.Device(os.path.join(folder, name), port) for name in ("first", "second")]
    those[0].register("alice", PASSWORD)
    those[1].sign_in("alice", PASSWORD)
    return those


def pushes_and_pulls(folder, port, rounds):
    """Seconds of a sync that sends 150 new notes, and of one by which another device gets them; the least of some."""
    first, second = account(folder, port)
    second.sync()
    pushed, pulled = [], []
    for _ in range(rounds):
        for number in range(BATCH):
            first.put(note(number))
        pushed.append(timed(first.sync))
        pulled.append(timed(second.sync))
    assert len(second.list()) == rounds * BATCH
    return min(pushed), min(pulled)


def puts(folder, port, count):
    """Seconds of so many notes put one command each, of one put at their end, and the store's bytes."""
    device = devices.Device(os.path.join(folder, "putting"), port)
    device.register("bob", PASSWORD)
    took = [timed(lambda: device.put(note(number))) for number in range(count)]
    return sum(took), sum(took[-20:]) / 20, os.path.getsize(device.store)


def of_calendars(timed):
    lines = []
    for name, (kept, read) in timed.items():
        lines.append("| %s: %d new items, a request each | %.0f | |" % (name, BATCH, kept * BATCH * 1e3))
        lines.append("| %s: %d items read, a request each | %.0f | |" % (name, BATCH, read * BATCH * 1e3))
        lines.append("| %s: %d new items, a request each | %.0f | |" % (name, NOTES, kept * NOTES * 1e3))
    return lines


def bar(seconds, anchors):
    """How many times as fast this is as the fastest of the anchors, and whether that is enough."""
    if not anchors:
        return "; no anchor is installed"
    times = min(anchors) / seconds
    return "; %.0f times the faster of the anchors (bar %d, %s)" % (times, BAR, "met" if times >= BAR else "not met")


def measured(folder, rounds, count):
    start = starts(50)
    bare = sum(serve.two_syncs(folder, serve.ITEM_BYTES) for _ in range(50)) / 50
    with serving.Served(os.path.join(folder, "server")) as server:
        pushed, pulled = pushes_and_pulls(folder, server.port, rounds)
        whole, last, size = puts(folder, server.port, count)
    anchors = {name: calendars.timed(folder, name, 300, serve.ITEM_BYTES) for name in calendars.installed()}
    push = bar(pushed, [kept * BATCH for kept, _ in anchors.values()])
    pull = bar(pulled, [read * BATCH for _, read in anchors.values()])
    row = "| %s | %.1f | %s |"
    return [
        "| what | ms | of it |",
        "|---|---|---|",
        row % ("the program's start and end alone", start * 1e3, ""),
        row % ("two bare syncs of a file", bare * 1e3, ""),
        row % ("a sync that sends %d new notes" % BATCH, pushed * 1e3, "two commits of the device, one of the server" + push),
        row % ("a sync that gets %d notes" % BATCH, pulled * 1e3, "one commit of the device" + pull),
        row % ("%d notes put, a command each" % count, whole * 1e3, "%.2f ms a note" % (whole / count * 1e3)),
        row % ("the last of them", last * 1e3, "one commit; the store has %d bytes then" % size),
        *of_calendars(anchors),
    ]


def main():
    parser = argparse.ArgumentParser()
    parser.add_argument("--rounds", type=int, default=5)
    parser.add_argument("--notes", type=int, default=NOTES)
    parser.add_argument("--folder", help="where the stores are made; its file system is what is measured")
    options = parser.parse_args()
    with tempfile.TemporaryDirectory(dir=options.folder) as folder:
        lines = measured(folder, options.rounds, options.notes)
    head = "%s, %s, Python %s; the least of %d rounds, load average %.1f." % (
        datetime.date.today(),
        commands.machine(),
        sys.version.split()[0],
        options.rounds,
        os.getloadavg()[0],
    )
    text = "\n".join([TITLE, "", head, "", *lines, ""])
    print(text)
    results.put(text)


if __name__ == "__main__":
    main()

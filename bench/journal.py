#!/usr/bin/env python3
"""Times the journal on a disk in memory: many small batches, and few large ones, appended and loaded.

Each run is a process of its own, so that its peak memory is its own. Loading is timed by what two loadings more take.
"""

import argparse
import ctypes
import datetime
import os
import resource
import subprocess
import sys
import time

import results

TITLE = "## The journal"

# name, bytes a batch, batches
RUNS = [
    ("1,000,000 batches of 64 bytes", 64, 1_000_000),
    ("4 batches of 16 MiB", 16 << 20, 4),
]


def worker(path, size, batches, loads):
    journal = ctypes.CDLL(path).sn_bench_journal
    journal.restype = ctypes.c_uint64
    payload = os.urandom(size)
    before = resource.getrusage(resource.RUSAGE_SELF).ru_maxrss
    begun = time.perf_counter()
    found = journal(payload, ctypes.c_size_t(size), ctypes.c_uint64(batches), ctypes.c_uint64(loads))
    took = time.perf_counter() - begun
    if found != (batches if loads else 0):
        sys.exit(f"found {found} batches")
    print(took, resource.getrusage(resource.RUSAGE_SELF).ru_maxrss - before)


def run(path, size, batches, loads, rounds):
    command = [sys.executable, __file__, "--library", path, "--worker", str(size), str(batches), str(loads)]
    answers = [subprocess.run(command, check=True, capture_output=True, text=True).stdout.split() for _ in range(rounds)]
    return min(float(took) for took, _ in answers), max(int(peak) for _, peak in answers)


def table(path, rounds):
    now = datetime.datetime.now(datetime.timezone.utc).strftime("%Y-%m-%d %H:%M")
    lines = [
        TITLE,
        "",
        f"On a disk in memory, {now} UTC, load average {os.getloadavg()[0]:.1f}, the best of {rounds} runs. MB are 10^6 bytes of payload; "
        "the peak is what the run adds to its process: the disk's bytes, its record of all that was written, and in a loading "
        "the file read and its payloads.",
        "",
        "| run | append | peak | load | peak |",
        "|---|---|---|---|---|",
    ]
    for name, size, batches in RUNS:
        megabytes = size * batches / 1e6
        append, append_peak = run(path, size, batches, 0, rounds)
        once, load_peak = run(path, size, batches, 1, rounds)
        thrice, _ = run(path, size, batches, 3, rounds)
        load = (thrice - once) / 2
        lines.append(
            f"| {name} | {append:.2f} s, {megabytes / append:.0f} MB/s | {append_peak / 1024:.0f} MiB "
            f"| {load:.2f} s, {megabytes / load:.0f} MB/s | {load_peak / 1024:.0f} MiB |"
        )
    return "\n".join(lines) + "\n"


def main():
    options = argparse.ArgumentParser(description=__doc__)
    options.add_argument("--library", required=True)
    options.add_argument("--rounds", type=int, default=3)
    options.add_argument("--worker", nargs=3, type=int)
    given = options.parse_args()
    if given.worker:
        worker(given.library, *given.worker)
        return
    text = table(given.library, given.rounds)
    print(text)
    results.put(text)


if __name__ == "__main__":
    main()

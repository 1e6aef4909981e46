#!/usr/bin/env python3
"""Times a device's calls at the real server, all in memory, beside the sealing and opening of as many items alone, and puts the
figures into RESULTS.md.

Each call of the library makes a server and its devices anew; what is timed is the difference of two calls of which the one does
more. All calls take turns in one process, and the shortest time of each counts. Times are of the processor, and not by the clock.
"""

import argparse
import ctypes
import datetime
import os
import sys
import time

import commands
import device
import results

TITLE = "## Both ends in memory"

COUNT = 10_000
DRAFTS = 150
# How many rounds more of edits, and of edits and syncs, the longer of two calls makes, and how many more pulls and lists.
MORE = 100
MORE_PULLS = 5
# What sealing and opening alone are to take, of the time of the calls.
BAR = 0.5


class Ends:
    """The library, with one content of all items."""

    def __init__(self, path, content):
        self.library = ctypes.CDLL(path)
        self.content = content.encode()

    def call(self, name, *numbers):
        function = getattr(self.library, "sn_bench_" + name)
        function.restype = ctypes.c_uint64
        return function(self.content, ctypes.c_size_t(len(self.content)), *map(ctypes.c_uint64, numbers))

    def check(self, count, drafts):
        """Ends where a run of these sizes isn't what it is to be."""
        sealed = self.call("seals", 1)
        for answer, wanted in (
            (self.call("puts", count), count),
            (self.call("pushes", count), count),
            (self.call("pulls", count, 2, 1), count),
            (self.call("edits", count, drafts, 1, 1), count - drafts),
            (self.call("edits", count, drafts, 2, 1), count - drafts),
            (self.call("drafts", count, drafts, 1, 1), count),
            (self.call("seals", count), count * sealed),
            (self.call("opens", count, 2), 2 * count * len(self.content)),
        ):
            if answer != wanted:
                sys.exit("answered %d, wanted %d" % (answer, wanted))


def calls(count, drafts, more):
    """The calls that are timed, by name."""
    return {
        "begun": ("puts", 0),
        "put": ("puts", count),
        "pushed": ("pushes", count),
        "pulled": ("pulls", count, 1, 0),
        "pulled more": ("pulls", count, 1 + MORE_PULLS, 0),
        "listed more": ("pulls", count, 1, MORE_PULLS),
        "edited": ("edits", count, drafts, 1, 0),
        "edited more": ("edits", count, drafts, 1 + more, 0),
        "sent": ("drafts", count, drafts, 1, 0),
        "sent more": ("drafts", count, drafts, 1 + more, 0),
        "sealed": ("seals", count),
        "opened": ("opens", count, 1),
        "opened more": ("opens", count, 3),
    }


def timed(ends, rounds, count, drafts, more):
    """The least seconds of each call."""
    least = {}
    for _ in range(rounds):
        for name, call in calls(count, drafts, more).items():
            began = time.thread_time()
            answer = ends.call(*call)
            took = time.thread_time() - began
            if answer == 2**64 - 1:
                sys.exit("%s: a call wasn't answered, or memory was wanting" % name)
            least[name] = min(took, least.get(name, took))
    return least


def row(what, items, seconds, seal, open_, barred):
    alone = items * (seal + open_)
    part = alone / seconds
    told = "%.2f (bar %.1f, %s)" % (part, BAR, "met" if part >= BAR else "not met") if barred else "%.2f" % part
    figures = seconds * 1e3, seconds / items * 1e6, items * seal * 1e3, items * open_ * 1e3, told
    return "| %s | " % what + "%.1f | %.1f | %.1f | %.1f | %s |" % figures


def table(least, count, drafts, more):
    seal = least["sealed"] / count
    open_ = (least["opened more"] - least["opened"]) / 2 / count
    edits = (least["edited more"] - least["edited"]) / more
    both = (least["sent more"] - least["sent"]) / more
    pull = (least["pulled more"] - least["pulled"]) / MORE_PULLS
    listing = (least["listed more"] - least["pulled"]) / MORE_PULLS
    return [
        "| what | ms | us an item | sealing as many alone, ms | opening as many alone, ms | both alone, of the time |",
        "|---|---|---|---|---|---|",
        row(f"{count:,} puts", count, least["put"] - least["begun"], seal, open_, True),
        row(f"a first pull of {count:,} items", count, pull, seal, open_, True),
        row(f"a sync with {drafts} drafts among {count:,} rows", drafts, both - edits, seal, open_, True),
        row(f"the sync that sends the {count:,} puts", count, least["pushed"] - least["put"], seal, open_, False),
        row(f"a list of {count:,} items, which opens each", count, listing, seal, open_, False),
        row(f"the {drafts} edits, which open and seal each", drafts, edits, seal, open_, False),
        row("these edits and the sync that sends them", drafts, both, seal, open_, False),
    ]


def section(lines, content, rounds):
    head = (
        "%s, %s, Python %s; processor time, the least of %d rounds, load average %.1f. A content has %d bytes. Differences of whole "
        "runs, each on a disk in memory for each end. Of the first three, puts seal, and neither the pull nor the sync seals or opens."
    ) % (
        datetime.date.today(),
        commands.machine(),
        sys.version.split()[0],
        rounds,
        os.getloadavg()[0],
        len(content),
    )
    return "\n".join([TITLE, "", head, "", *lines, ""])


def main():
    parser = argparse.ArgumentParser(description=__doc__)
    parser.add_argument("--library", required=True)
    parser.add_argument("--rounds", type=int, default=5)
    parser.add_argument("--count", type=int, default=COUNT)
    parser.add_argument("--drafts", type=int, default=DRAFTS)
    parser.add_argument("--more", type=int, default=MORE)
    parser.add_argument("--dry", action="store_true", help="prints the figures alone")
    options = parser.parse_args()
    sizes = options.count, options.drafts, options.more
    content = device.note(0)
    ends = Ends(options.library, content)
    ends.check(options.count, options.drafts)
    text = section(table(timed(ends, options.rounds, *sizes), *sizes), content, options.rounds)
    print(text)
    if not options.dry:
        results.put(text)


if __name__ == "__main__":
    main()

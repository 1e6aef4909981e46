#!/usr/bin/env python3
"""Times `sn replay` on scripts of puts and syncs at cost 1, with its peak memory, and puts the figures into RESULTS.md.

A script begins an account, puts items of one small content, and syncs a hundred times, after each hundredth of the
puts. Each time is the least of some rounds, less that of the empty script.
"""

import argparse
import datetime
import pathlib
import sys
import tempfile

import commands
import results

TITLE = "## Replay"
PUTS = (1000, 10000, 100000)
SYNCS = 100


def script(puts, content):
    lines = ["cost 1", "clock 1000", "register A alice p1"]
    for place in range(puts):
        lines.append("put A " + content)
        if (place + 1) % (puts // SYNCS) == 0:
            lines.append("sync A")
    return "\n".join(lines) + "\n"


def measured(scratch, rounds):
    out, nothing = scratch / "out", scratch / "nothing"
    nothing.write_bytes(b"")
    start = min(commands.run(["replay"], nothing, out) for _ in range(rounds))[0]
    rows = []
    for puts in PUTS:
        given = scratch / "script"
        given.write_text(script(puts, '{"title":"a note"}'))
        best = None
        for _ in range(rounds if puts < 100000 else 2):
            seconds, peak, status = commands.run(["replay"], given, out)
            assert status == 0, puts
            best = min(best or (seconds, peak), (seconds, peak))
        written = out.read_text()
        assert written.count(" accept #") == puts and written.count(" = ok\n") == puts + SYNCS + 1
        rows.append((puts, max(best[0] - start, 1e-9), best[1], given.stat().st_size, out.stat().st_size))
    return rows


def table(rows):
    lines = ["| puts and syncs | seconds | events a second | peak memory, MB | script, MB | report, MB |", "|---|---|---|---|---|---|"]
    for puts, seconds, peak, given, written in rows:
        lines.append(
            "| %d and %d | %.2f | %.0f | %.0f | %.2f | %.2f |"
            % (puts, SYNCS, seconds, (puts + SYNCS + 1) / seconds, peak / 1024, given / 1e6, written / 1e6)
        )
    return lines


def main():
    parser = argparse.ArgumentParser()
    parser.add_argument("--rounds", type=int, default=3)
    options = parser.parse_args()
    with tempfile.TemporaryDirectory() as scratch:
        rows = measured(pathlib.Path(scratch), options.rounds)
    head = "%s, %s, Python %s; least of %d rounds (of 2 at the most puts)." % (
        datetime.date.today(),
        commands.machine(),
        sys.version.split()[0],
        options.rounds,
    )
    text = "\n".join([TITLE, "", head, ""] + table(rows) + [""])
    print(text)
    results.put(text)


if __name__ == "__main__":
    main()

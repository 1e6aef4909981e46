#!/usr/bin/env python3
"""Times the built program on large inputs, with its peak memory, and puts the figures into RESULTS.md.

Reading a string is timed by `sn open` of one that names another uuid: the whole string is read by the grammar and
nothing is hashed or decrypted. Beside it Python matches the grammar with `re` and decodes the base64, on the same text.
Each time is processor time, the least of some rounds, taken in turn, less that of a run that refuses its words. Beside
`sn seal` stands what its cipher and its hash take in the library, on texts of the same lengths, in the same rounds.
"""

import argparse
import base64
import datetime
import os
import pathlib
import re
import subprocess
import sys
import time

import primitives
import results

HERE = pathlib.Path(__file__).resolve().parent
TITLE = "## Commands"

UUID = "00000000-0000-4000-8000-000000000001"
OTHER_UUID = "00000000-0000-4000-8000-000000000002"
KEY = bytes(range(64)).hex()
SEAL = ["seal", "--uuid", UUID, "--key", KEY, "--identifier", "alice", "--cost", "1", "--nonce", "6e"]
OPEN = ["open", "--uuid", UUID, "--key", KEY]
OPEN_OTHER = ["open", "--uuid", OTHER_UUID, "--key", KEY]
LARGEST = 1 << 24

GRAMMAR = re.compile(
    r"003:[0-9a-f]{64}:[0-9a-f]{8}-[0-9a-f]{4}-[0-9a-f]{4}-[0-9a-f]{4}-[0-9a-f]{12}:[0-9a-f]{32}"
    r":((?:[A-Za-z0-9+/]{4})*(?:[A-Za-z0-9+/]{2}==|[A-Za-z0-9+/]{3}=)?):([A-Za-z0-9+/=]+)"
)


def program():
    built = sorted((HERE.parent / ".built").glob("sn-*"))
    if not built:
        sys.exit("bench: no built program: run ./sn once")
    return str(built[0])


# A small process starts the program, since a child's peak memory counts that of the process which it came from.
LAUNCHER = """
import os, sys
child = os.posix_spawn(sys.argv[1], sys.argv[1:], os.environ, file_actions=[(os.POSIX_SPAWN_OPEN, 2, os.devnull, os.O_WRONLY, 0)])
_, status, usage = os.wait4(child, 0)
print(usage.ru_utime + usage.ru_stime, usage.ru_maxrss, os.waitstatus_to_exitcode(status), file=sys.stderr)
"""


def run(words, path, out):
    """Seconds of processor time, peak kilobytes and status of one run over the files."""
    with open(path, "rb") as given, open(out, "wb") as written:
        done = subprocess.run(
            [sys.executable, "-S", "-c", LAUNCHER, program()] + words,
            stdin=given,
            stdout=written,
            stderr=subprocess.PIPE,
            check=True,
        )
    seconds, peak, status = done.stderr.split()
    return float(seconds), int(peak), int(status)


def python_reads(text):
    began = time.process_time()
    found = GRAMMAR.fullmatch(text)
    data = base64.b64decode(found.group(1), validate=True)
    assert len(data) % 16 == 0 and base64.b64decode(found.group(2), validate=True)
    return time.process_time() - began


def cipher_and_hash(proved, plain, covered):
    """Seconds of the library's CBC over the plain text and its HMAC over what a string's hash covers."""
    began = time.process_time()
    proved.seal(plain)
    proved.hmac(covered)
    return time.process_time() - began


def measured(proved, scratch, rounds):
    plain, sealed, out, nothing = (scratch / name for name in ("plain", "sealed", "out", "nothing"))
    nothing.write_bytes(b"")
    plain.write_bytes(b"a" * LARGEST)
    whole = scratch / "whole"
    assert run(SEAL, plain, whole)[2] == 0
    version, _, *covered, _ = whole.read_bytes().split(b":")
    covered = b":".join([version, *covered])
    part = scratch / "part"
    part.write_bytes(b"a" * (LARGEST * 3 // 4 - 1000))
    assert run(SEAL, part, sealed)[2] == 0
    text = sealed.read_text()[:-1]
    best = {}
    for _ in range(rounds):
        for name, (words, path) in {
            "start": (["-"], nothing),
            "seal": (SEAL, plain),
            "open": (OPEN, sealed),
            "read": (OPEN_OTHER, sealed),
        }.items():
            seconds, peak, status = run(words, path, out)
            assert status == {"start": 2, "seal": 0, "open": 0, "read": 3}[name], name
            best[name] = min(best.get(name, (seconds, peak)), (seconds, peak))
        seconds = cipher_and_hash(proved, plain.read_bytes(), covered)
        best["floor"] = min(best.get("floor", (seconds, 0)), (seconds, 0))
        seconds = python_reads(text)
        best["python"] = min(best.get("python", (seconds, 0)), (seconds, 0))
    return best, len(text)


def table(best, length):
    start = best["start"][0]
    lines = ["| what | bytes in | seconds | MB/s | of its cipher and hash | peak memory, of the bytes in |", "|---|---|---|---|---|---|"]
    rows = [
        ("`sn seal`", "seal", LARGEST),
        ("`sn open`", "open", length + 1),
        ("reading the string alone (`sn open`, another uuid)", "read", length + 1),
    ]
    for what, name, size in rows:
        seconds, peak = best[name]
        net = max(seconds - start, 1e-9)
        share, memory = "", "%.1f times" % (peak * 1024 / size)
        if name == "seal":
            share = barred(net / best["floor"][0], 1.5)
            memory = barred(peak * 1024 / size, 3.0)
        lines.append("| %s | %d | %.3f | %.0f | %s | %s |" % (what, size, net, size / net / 1e6, share, memory))
    seconds = best["floor"][0]
    lines.append("| its cipher and hash in the library | %d | %.3f | %.0f | | |" % (LARGEST, seconds, LARGEST / seconds / 1e6))
    seconds = best["python"][0]
    lines.append("| Python, `re.fullmatch` and `base64.b64decode` | %d | %.3f | %.0f | | |" % (length, seconds, length / seconds / 1e6))
    return lines


def barred(times, bar):
    """A figure with its bar."""
    return "%.2f times (bar %.1f, %s)" % (times, bar, "met" if times <= bar else "not met")


def machine():
    for line in pathlib.Path("/proc/cpuinfo").read_text().splitlines():
        if line.startswith("model name"):
            return line.split(":", 1)[1].strip()
    return "an unknown processor"


def main():
    parser = argparse.ArgumentParser()
    parser.add_argument("--library", required=True)
    parser.add_argument("--rounds", type=int, default=5)
    options = parser.parse_args()
    import tempfile

    with tempfile.TemporaryDirectory() as scratch:
        best, length = measured(primitives.Proved(options.library), pathlib.Path(scratch), options.rounds)
    head = "%s, %s, Python %s; processor time, least of %d rounds." % (
        datetime.date.today(),
        machine(),
        sys.version.split()[0],
        options.rounds,
    )
    lines = [TITLE, "", head, ""] + table(best, length) + [""]
    text = "\n".join(lines)
    print(text)
    results.put(text)


if __name__ == "__main__":
    main()

#!/usr/bin/env python3
"""Times a change of an account's password over many notes, against `sn serve` over loopback with both stores on a real disk, and
puts the figures into RESULTS.md.

The notes come from a client in Python, and the device has them all before it changes the password. Of a first change the
requests and their bytes are counted at a proxy, and the commits in the device's store; those that are timed go straight to the
server. Each figure is of the whole command. Times are by the clock.
"""

import argparse
import datetime
import os
import pathlib
import subprocess
import sys
import tempfile
import time

import commands
import device
import results

sys.path.insert(0, str(pathlib.Path(__file__).resolve().parent.parent / "tests"))

import devices  # noqa: E402
import independent  # noqa: E402
import journal  # noqa: E402
import program  # noqa: E402
import scripted  # noqa: E402
import serving  # noqa: E402

TITLE = "## A change of password"

NOTES = 1_000, 10_000
# How many items a device sends in one request, and how many this client does.
BATCH = 150
SENT = 500


def sealed(number, keys, cost, nonce):
    """A note as a request has it."""
    uuid = "00000000-0000-4000-8000-%012x" % number
    key = number.to_bytes(64, "big")
    vector = number.to_bytes(16, "big")
    content = independent.seal(device.note(number).encode(), uuid, key, "alice", cost, nonce, vector)
    enc = independent.seal(key.hex().encode(), uuid, keys, "alice", cost, nonce, vector)
    return {"uuid": uuid, "content_type": "Note", "content": content, "enc_item_key": enc, "updated_at": None}


def filled(folder, port, count):
    """A device of an account with so many notes, all of which it has."""
    one = devices.Device(os.path.join(folder, "device"), port)
    one.register("alice", device.PASSWORD)
    cost, nonce, pw, *keys = one.sets()[0]
    client = serving.Client(port)
    assert client.sign_in("alice", pw.hex())[0] == 200
    items = [sealed(number, b"".join(keys), cost, nonce) for number in range(1, count + 1)]
    for begin in range(0, count, SENT):
        assert len(client.sync(items[begin : begin + SENT])[1]["saved_items"]) == len(items[begin : begin + SENT])
    one.sync()
    return one


def commits(store):
    with open(store, "rb") as file:
        return len(journal.payloads(file.read(), b"D"))


def counted(one, port, password):
    """The requests of a change, their bytes, and the commits of the device."""
    before, server = commits(one.store), one.server
    with scripted.Dropping(port) as proxy:
        one.server = "127.0.0.1:%d" % proxy.port
        one.passwd(password)
    one.server = server
    return len(proxy.paths), proxy.size, commits(one.store) - before


def timed(one, password):
    """Seconds of a change, and the peak of its memory in kilobytes."""
    began = time.perf_counter()
    process = subprocess.Popen([program.SN, *one.words("passwd")], stdin=subprocess.PIPE, stdout=subprocess.DEVNULL)
    process.stdin.write(password.encode())
    process.stdin.close()
    _, status, used = os.wait4(process.pid, 0)
    process.returncode = os.waitstatus_to_exitcode(status)
    assert process.returncode == 0
    return time.perf_counter() - began, used.ru_maxrss


def measured(folder, count, rounds):
    """The row of so many notes."""
    with serving.Served(os.path.join(folder, "server")) as server:
        one = filled(folder, server.port, count)
        exchanges, size, made = counted(one, server.port, "the first new password")
        before = os.path.getsize(one.store)
        took = [timed(one, "new password %d" % number) for number in range(rounds)]
        grown = (os.path.getsize(one.store) - before) // rounds
        assert len(devices.versions(os.path.join(folder, "server"), "alice", "new password %d" % (rounds - 1))) == count
        assert all(line.split()[1] == "clean" for line in one.list())
    # The device was in step with the server, so its first sync has one answer.
    most = 2 + 1 + -(-count // BATCH)
    bar = "at most %d, %s" % (most, "met" if exchanges <= most and made <= most + 2 else "not met")
    seconds, kilobytes = min(took)[0], max(peak for _, peak in took)
    figures = count, exchanges, bar, made, size / 1e6, seconds * 1e3, kilobytes // 1024, grown / 1e6
    return "| %d | %d (%s) | %d | %.2f | %.0f | %d | %.2f |" % figures


def main():
    parser = argparse.ArgumentParser()
    parser.add_argument("--rounds", type=int, default=3)
    parser.add_argument("--notes", type=int, nargs="+", default=NOTES)
    parser.add_argument("--folder", help="where the stores are made; its file system is what is measured")
    options = parser.parse_args()
    derived = device.timed(lambda: independent.keys(b"password", b"alice", 110000, b"6e"))
    lines = []
    for count in options.notes:
        with tempfile.TemporaryDirectory(dir=options.folder) as folder:
            lines.append(measured(folder, count, options.rounds))
    head = "%s, %s, Python %s; the least time of %d changes, load average %.1f." % (
        datetime.date.today(),
        commands.machine(),
        sys.version.split()[0],
        options.rounds,
        os.getloadavg()[0],
    )
    head += " The new keys alone, 110,000 iterations of PBKDF2, take Python's `hashlib` %.0f ms." % (derived * 1e3)
    table = ["| notes | exchanges | commits | MB sent | ms | MB of memory | MB more in the store |", "|---|---|---|---|---|---|---|", *lines]
    text = "\n".join([TITLE, "", head, "", *table, ""])
    print(text)
    results.put(text)


if __name__ == "__main__":
    main()

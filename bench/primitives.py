#!/usr/bin/env python3
"""Times the proved primitives beside other implementations, and compares what they answer.

Each implementation runs in a process of its own, since OpenSSL reads once, as it starts, which instructions
it may use. All of them run on one processor, in turn, round after round, and the shortest time of each counts.
"""

import argparse
import ctypes
import ctypes.util
import datetime
import hashlib
import hmac
import json
import os
import pathlib
import random
import subprocess
import sys
import time

import results

HERE = pathlib.Path(__file__).resolve().parent

# What OPENSSL_ia32cap switches off: bit 57 of the first word is AES, bit 41 SSSE3; bit 29 of the second is SHA.
AES, SSSE3, SHA = 1 << 57, 1 << 41, 1 << 29
WITHOUT = {
    "table": f"~{AES | SSSE3:#x}",
    "ssse3": f"~{AES:#x}",
    "no_sha": f":~{SHA:#x}",
    "all": None,
}

drawn = random.Random(20261126)
KEY = drawn.randbytes(32)
IV = drawn.randbytes(16)
TEXT = drawn.randbytes(1 << 20)
SHORT_TEXTS = drawn.randbytes(64 * 10000)
PASSWORD, SALT, COST = drawn.randbytes(24), drawn.randbytes(64), 110_000


class Proved:
    """The proved library."""

    def __init__(self, path):
        self.library = ctypes.CDLL(path)
        self.library.sn_bench_seal.restype = ctypes.c_bool
        self.library.sn_bench_unseal.restype = ctypes.c_bool

    @staticmethod
    def slice(data):
        return data, ctypes.c_size_t(len(data))

    def seal(self, text):
        end = ctypes.create_string_buffer(16)
        if not self.library.sn_bench_seal(KEY, IV, *self.slice(text), end):
            sys.exit("out of memory")
        return end.raw

    def unseal(self, sealed):
        end = ctypes.create_string_buffer(16)
        if not self.library.sn_bench_unseal(KEY, IV, *self.slice(sealed), end):
            sys.exit("not opened")
        return end.raw

    def hmac(self, text):
        digest = ctypes.create_string_buffer(32)
        self.library.sn_bench_hmac(*self.slice(KEY), *self.slice(text), digest)
        return digest.raw

    def short(self, function, texts):
        digests = ctypes.create_string_buffer(len(texts) // 2)
        function(*self.slice(KEY), *self.slice(texts), digests, ctypes.c_size_t(len(texts) // 2))
        return digests.raw

    def short_new(self, texts):
        return self.short(self.library.sn_bench_macs, texts)

    def short_copied(self, texts):
        return self.short(self.library.sn_bench_copied_macs, texts)

    def pbkdf(self, cost):
        derived = ctypes.create_string_buffer(96)
        self.library.sn_bench_derive96(*self.slice(PASSWORD), *self.slice(SALT), ctypes.c_uint32(cost), derived)
        return derived.raw


class OpenSsl:
    """OpenSSL's library, with the instructions that its environment leaves it."""

    def __init__(self):
        self.library = ctypes.CDLL(ctypes.util.find_library("crypto"))
        for name in ("EVP_CIPHER_CTX_new", "EVP_aes_256_cbc", "EVP_sha256", "HMAC"):
            getattr(self.library, name).restype = ctypes.c_void_p
        self.library.OpenSSL_version.restype = ctypes.c_char_p
        self.context = ctypes.c_void_p(self.library.EVP_CIPHER_CTX_new())
        self.room = ctypes.create_string_buffer(len(TEXT) + 32)

    def version(self):
        return self.library.OpenSSL_version(0).decode()

    def cipher(self, way, data):
        start = ctypes.addressof(self.room)
        count, rest = ctypes.c_int(), ctypes.c_int()
        begun = getattr(self.library, f"EVP_{way}Init_ex")(
            self.context, ctypes.c_void_p(self.library.EVP_aes_256_cbc()), None, KEY, IV
        )
        done = getattr(self.library, f"EVP_{way}Update")(
            self.context, ctypes.c_void_p(start), ctypes.byref(count), data, ctypes.c_int(len(data))
        )
        ended = getattr(self.library, f"EVP_{way}Final_ex")(
            self.context, ctypes.c_void_p(start + count.value), ctypes.byref(rest)
        )
        if not (begun and done and ended):
            sys.exit("OpenSSL refused")
        length = count.value + rest.value
        return ctypes.string_at(start + length - 16, 16)

    def seal(self, text):
        return self.cipher("Encrypt", text)

    def unseal(self, sealed):
        return self.cipher("Decrypt", sealed)

    def sealed(self, text):
        self.seal(text)
        return ctypes.string_at(ctypes.addressof(self.room), len(text) // 16 * 16 + 16)

    def hmac(self, text):
        digest = ctypes.create_string_buffer(32)
        self.library.HMAC(
            ctypes.c_void_p(self.library.EVP_sha256()), KEY, len(KEY), text, ctypes.c_size_t(len(text)), digest, None
        )
        return digest.raw


class Python:
    """Python's own modules."""

    @staticmethod
    def each(texts):
        return [texts[i : i + 64] for i in range(0, len(texts), 64)]

    def short_new(self, texts):
        return b"".join([hmac.new(KEY, text, "sha256").digest() for text in texts])

    def short_digest(self, texts):
        return b"".join([hmac.digest(KEY, text, "sha256") for text in texts])

    def short_copied(self, texts):
        begun = hmac.new(KEY, digestmod="sha256")
        digests = []
        for text in texts:
            mac = begun.copy()
            mac.update(text)
            digests.append(mac.digest())
        return b"".join(digests)

    def pbkdf(self, cost):
        return hashlib.pbkdf2_hmac("sha512", PASSWORD, SALT, cost, 96)


def work(arguments):
    """Answers each request of standard input, a task and how often to do it, with the shortest time and the value."""
    if arguments.worker == "proved":
        maker = Proved(arguments.library)
    elif arguments.worker == "python":
        maker = Python()
    else:
        maker = OpenSsl()
    inputs = {"seal": TEXT, "hmac": TEXT, "pbkdf": COST}
    inputs["unseal"] = OpenSsl().sealed(TEXT)
    short = Python.each(SHORT_TEXTS) if arguments.worker == "python" else SHORT_TEXTS
    for line in sys.stdin:
        task, repeats = line.split()
        function, given = getattr(maker, task), inputs.get(task, short)
        shortest = float("inf")
        for _ in range(int(repeats)):
            start = time.perf_counter()
            value = function(given)
            shortest = min(shortest, time.perf_counter() - start)
        print(json.dumps([shortest, hashlib.sha256(value).hexdigest()]), flush=True)


class Worker:
    """A process that times one implementation."""

    def __init__(self, arguments, name, without=None):
        environment = {key: value for key, value in os.environ.items() if key != "OPENSSL_ia32cap"}
        if without:
            environment["OPENSSL_ia32cap"] = without
        command = [sys.executable, __file__, "--worker", name, "--library", arguments.library]
        self.process = subprocess.Popen(
            command, env=environment, stdin=subprocess.PIPE, stdout=subprocess.PIPE, text=True
        )

    def time(self, task, repeats):
        self.process.stdin.write(f"{task} {repeats}\n")
        self.process.stdin.flush()
        answer = self.process.stdout.readline()
        if not answer:
            sys.exit("a worker ended early")
        return json.loads(answer)

    def end(self):
        self.process.stdin.close()
        self.process.wait()


# task of the proved library; repeats a round; what it is called; its peers: name of the process, task, words, bar
MEGABYTES = len(TEXT) / 1e6
TEXTS = len(SHORT_TEXTS) / 64
ROWS = [
    ("seal", 5, "AES-256-CBC sealing, 1 MiB", [
        ("table", "seal", "OpenSSL, no AES or SSSE3 instructions", 0.85),
        ("ssse3", "seal", "OpenSSL, no AES instructions", None),
        ("all", "seal", "OpenSSL", None)]),
    ("unseal", 5, "AES-256-CBC opening, 1 MiB", [
        ("table", "unseal", "OpenSSL, no AES or SSSE3 instructions", 0.85),
        ("ssse3", "unseal", "OpenSSL, no AES instructions", None),
        ("all", "unseal", "OpenSSL", None)]),
    ("hmac", 5, "HMAC-SHA-256, 1 MiB", [
        ("no_sha", "hmac", "OpenSSL, no SHA instructions", 0.95),
        ("all", "hmac", "OpenSSL", None)]),
    ("short_new", 2, "HMAC-SHA-256, texts of 64 bytes", [
        ("python", "short_new", "Python, `hmac.new(..).digest()`", 2),
        ("python", "short_digest", "Python, `hmac.digest(..)`", None)]),
    ("short_copied", 2, "the same, from a begun copy", [
        ("python", "short_copied", "Python, `copy()` of a begun one", None)]),
    ("pbkdf", 1, "PBKDF2-HMAC-SHA-512, 110,000 iterations, 96 bytes", [
        ("python", "pbkdf", "Python, `hashlib.pbkdf2_hmac`", 0.95)]),
]


def figure(task, seconds):
    if task in ("seal", "unseal", "hmac"):
        return f"{MEGABYTES / seconds:.0f} MB/s"
    if task.startswith("short"):
        return f"{TEXTS / seconds / 1000:.0f} thousand/s"
    return f"{seconds * 1000:.1f} ms"


def measure(arguments):
    """The shortest time of each task of each process, over all rounds. Ends where two answers differ."""
    workers = {"proved": Worker(arguments, "proved"), "python": Worker(arguments, "python")}
    for name, without in WITHOUT.items():
        workers[name] = Worker(arguments, "openssl", without)
    shortest = {}
    for _ in range(arguments.rounds):
        for task, repeats, _, peers in ROWS:
            values = set()
            for name, peer_task in [("proved", task)] + [peer[:2] for peer in peers]:
                seconds, value = workers[name].time(peer_task, repeats)
                values.add(value)
                shortest[name, peer_task] = min(seconds, shortest.get((name, peer_task), seconds))
            if len(values) != 1:
                sys.exit(f"{task}: the answers differ")
    for worker in workers.values():
        worker.end()
    return shortest


def table(shortest):
    lines = ["| what | proved | beside it | its figure | ratio | bar |", "|---|---|---|---|---|---|"]
    for task, _, words, peers in ROWS:
        ours = shortest["proved", task]
        for name, peer_task, peer_words, bar in peers:
            theirs = shortest[name, peer_task]
            ratio = ours / theirs if task == "pbkdf" else theirs / ours
            told = ""
            if bar:
                is_met = ratio <= bar if task == "pbkdf" else ratio >= bar
                told = f"{'≤' if task == 'pbkdf' else '≥'} {bar}, {'met' if is_met else 'missed'}"
            lines.append(
                f"| {words} | {figure(task, ours)} | {peer_words} | {figure(task, theirs)} | {ratio:.2f} | {told} |"
            )
    return "\n".join(lines)


def processor():
    for line in pathlib.Path("/proc/cpuinfo").read_text().splitlines():
        if line.startswith("model name"):
            return " ".join(line.partition(":")[2].split())
    return "unknown processor"


def main():
    parser = argparse.ArgumentParser()
    parser.add_argument("--library", required=True)
    parser.add_argument("--built-for", default="unknown")
    parser.add_argument("--rounds", type=int, default=15)
    parser.add_argument("--worker")
    arguments = parser.parse_args()
    if arguments.worker:
        work(arguments)
        return
    os.sched_setaffinity(0, {max(os.sched_getaffinity(0))})
    load = os.getloadavg()[0]
    shortest = measure(arguments)
    today = datetime.date.today().isoformat()
    section = (
        f"## Primitives, built for {arguments.built_for}\n\n"
        f"{today}, {processor()}, {OpenSsl().version()}, Python {sys.version.split()[0]}; "
        f"least of {arguments.rounds} rounds, load average before them {load:.1f}. "
        "PBKDF2's ratio is of times, the others are of speeds, the proved library's to its peer's.\n\n"
        f"{table(shortest)}\n"
    )
    print(section)
    results.put(section)


if __name__ == "__main__":
    main()

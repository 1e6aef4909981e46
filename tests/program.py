"""Runs the built program, which `tests/run` has made by `./sn`: the newest, where a build that was cut off left an older one."""

import glob
import os
import resource
import subprocess

TOP = os.path.join(os.path.dirname(os.path.abspath(__file__)), "..")
BUILT = sorted(glob.glob(os.path.join(TOP, ".built", "sn-*")), key=os.path.getmtime)
SN = BUILT[-1] if BUILT else os.path.join(TOP, "sn")

UUID = "00000000-0000-4000-8000-000000000001"
KEY = bytes(range(64))


def run(words, given=b""):
    """Status, standard output and standard error of one run."""
    done = subprocess.run([SN] + words, input=given, stdout=subprocess.PIPE, stderr=subprocess.PIPE)
    return done.returncode, done.stdout, done.stderr


def seal_words(uuid=UUID, key=KEY, identifier="alice", cost="1", nonce="6e"):
    words = ["seal", "--uuid", uuid, "--key", key.hex(), "--identifier", identifier]
    if cost is not None:
        words += ["--cost", cost]
    return words + ["--nonce", nonce]


def open_words(uuid=UUID, key=KEY):
    return ["open", "--uuid", uuid, "--key", key.hex()]


def peak_kilobytes():
    """The largest resident size of the children that have ended."""
    return resource.getrusage(resource.RUSAGE_CHILDREN).ru_maxrss

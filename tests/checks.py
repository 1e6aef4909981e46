"""Runs the checks of this folder, as many files at once as there are processors, and closes with a line that counts them.

A file, or a check of the longest file, runs in a process of its own, so that the peak memory that a check reads is of its
own children. What some files need, the proved functions that no command shows, is built as a shared library meanwhile, by
`bench/library`, where there is a C compiler and SN_LIBRARY isn't set.
"""

import concurrent.futures
import os
import pathlib
import re
import shutil
import subprocess
import sys
import tempfile
import time
import unittest

HERE = pathlib.Path(__file__).resolve().parent

# Where this is set, a check that is skipped fails, but for these, whose programs not every place that checks can install.
NOTHING_SKIPPED = bool(os.environ.get("SN_NOTHING_SKIPPED"))
MAY_BE_SKIPPED = {("test_serve", "BehindAProxy")}

# The files that take longest begin first, and the checks of the longest run side by side.
LONGEST = ("test_stops", "test_passwd", "test_serve", "test_device")
APART = ("test_passwd",)


class Result(unittest.TextTestResult):
    """Counts the checks that passed."""

    passed = 0

    def addSuccess(self, test):
        super().addSuccess(test)
        self.passed += 1


def skipped_classes(result):
    """A line for each class of checks of which some were skipped."""
    reasons = {}
    for test, reason in result.skipped:
        key = (type(test).__module__, type(test).__name__, reason)
        reasons[key] = reasons.get(key, 0) + 1
    for (module, name, reason), count in sorted(reasons.items()):
        yield "skipped: %s.%s (%d), since %s" % (module, name, count, reason)


def last_line(passed, failed, skipped):
    line = "%d passed, %d failed" % (passed, failed)
    return line + ", %d skipped" % skipped if skipped else line


def counted(line):
    """The three numbers of a last line, or one failed check where it is none."""
    found = re.fullmatch(r"(\d+) passed, (\d+) failed(?:, (\d+) skipped)?", line)
    return [int(number or 0) for number in found.groups()] if found else [0, 1, 0]


def run_here(name):
    """Runs the checks of one file, class or name in this process."""
    suite = unittest.defaultTestLoader.loadTestsFromName(name)
    began = time.time()
    result = unittest.TextTestRunner(stream=sys.stdout, verbosity=2, resultclass=Result).run(suite)
    failed = len(result.failures) + len(result.errors)
    skipped = len(result.skipped)
    print("%s: %.1f s" % (name, time.time() - began))
    for line in skipped_classes(result):
        print(line)
    barred = [test for test, _ in result.skipped if (type(test).__module__, type(test).__name__) not in MAY_BE_SKIPPED]
    if barred and NOTHING_SKIPPED:
        print("nothing of %s may be skipped where CI is set, so these fail" % ", ".join(sorted({type(test).__name__ for test in barred})))
        failed, skipped = failed + len(barred), skipped - len(barred)
    print(last_line(result.passed, failed, skipped))
    return 1 if failed else 0


def needs_library(name):
    """Whether the file that a name is of calls the shared library."""
    file = HERE / (name.split(".")[0] + ".py")
    return file.exists() and 'LIBRARY = os.environ.get("SN_LIBRARY")' in file.read_text()


def build_library(folder):
    """The path of the shared library, or None where it wasn't built."""
    path = os.path.join(folder, "sn_bench.so")
    done = subprocess.run([str(HERE.parent / "bench" / "library"), path], stdout=subprocess.DEVNULL)
    return path if done.returncode == 0 else None


def run_apart(name, library):
    """What the checks of a name print, run in a process of their own."""
    environment = dict(os.environ)
    if library is not None and needs_library(name):
        environment["SN_LIBRARY"] = path = library.result() or ""
        if not path:
            return "%s: the shared library was not built\n%s\n" % (name, last_line(0, 1, 0))
    command = [sys.executable, __file__, "--here", name]
    return subprocess.run(command, cwd=HERE, env=environment, stdout=subprocess.PIPE, stderr=subprocess.STDOUT, text=True).stdout


def apart(name):
    """The names that are run in a process each: those of a file's checks where it takes longest, and else the name itself."""
    loader = unittest.TestLoader()
    checks = loader.loadTestsFromName(name) if name in APART else ()
    # A file that can't be loaded is run whole, and fails there.
    return [name] if loader.errors or not checks else [test.id() for each in checks for test in each]


def run_all(names):
    """Runs the checks of these names side by side."""
    began, counts = time.time(), [0, 0, 0]
    builds = shutil.which("cc") and "SN_LIBRARY" not in os.environ and any(map(needs_library, names))
    order = sorted(names, key=lambda name: (needs_library(name), name not in LONGEST))
    order = [each for name in order for each in apart(name)]
    with tempfile.TemporaryDirectory(prefix="sn-checks-") as folder, concurrent.futures.ThreadPoolExecutor((os.cpu_count() or 1) + 1) as lanes:
        library = lanes.submit(build_library, folder) if builds else None
        for done in concurrent.futures.as_completed([lanes.submit(run_apart, name, library) for name in order]):
            lines = done.result().splitlines()
            print("\n".join(lines), flush=True)
            counts = [one + other for one, other in zip(counts, counted(lines[-1] if lines else ""))]
    print("end-to-end checks: %.1f s" % (time.time() - began))
    print(last_line(*counts))
    return 1 if counts[1] else 0


def main():
    if sys.argv[1:2] == ["--here"]:
        return run_here(sys.argv[2])
    return run_all(sys.argv[1:] or sorted(path.stem for path in HERE.glob("test_*.py")))


if __name__ == "__main__":
    sys.exit(main())

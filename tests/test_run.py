"""The run of these checks itself: what can't run is skipped by its name, and fails where CI is set."""

import os
import shutil
import subprocess
import sys
import unittest

import program
import scratch

# A gate that is refused, so that the run ends behind it.
GATE = '#!/usr/bin/env bash\necho "0 passed, 1 failed (stub)"\nexit 1\n'
TOLD = '#!/usr/bin/env bash\necho "$0 $*" | sed "s|.*/||" >>"$SCRATCH/told"\n'
TOOLS = ("bash", "cat", "curl", "cut", "dirname", "env", "flock", "openssl", "python3", "sed")


class Machine(unittest.TestCase):
    """A machine on which only some commands are installed."""

    def machine(self, *without):
        clone = scratch.Clone()
        self.addCleanup(clone.close)
        self.scratch = clone.scratch
        for name in os.listdir(os.path.join(self.scratch, "bin")):
            clone.remove("bin/" + name)
        for tool in set(TOOLS) - set(without):
            os.symlink(shutil.which(tool) or sys.executable, os.path.join(self.scratch, "bin", tool))
        clone.write("bin/rt", GATE)
        clone.write("bin/apt-get", TOLD)
        clone.write("bin/id", "#!/usr/bin/env bash\necho 0\n")
        if "cc" not in without:
            clone.write("bin/cc", TOLD)

    def run_with(self, script, ci):
        environment = {"PATH": os.path.join(self.scratch, "bin"), "SCRATCH": self.scratch}
        if ci is not None:
            environment["CI"] = ci
        pipes = dict(stdout=subprocess.PIPE, stderr=subprocess.PIPE, text=True)
        bash = shutil.which("bash")
        done = subprocess.run([bash, os.path.join(program.TOP, script)], env=environment, **pipes)
        return done.returncode, done.stdout.splitlines(), done.stderr

    def told(self):
        try:
            with open(os.path.join(self.scratch, "told")) as file:
                return file.read().splitlines()
        except FileNotFoundError:
            return []


class WithoutPython(Machine):
    def test_skipped_by_name(self):
        self.machine("python3")
        for ci in (None, "", "false", "0"):
            status, out, err = self.run_with("tests/run", ci)
            self.assertEqual((status, out), (0, ["0 passed, 0 failed, 1 skipped"]))
            self.assertIn("all end-to-end checks are skipped", err)

    def test_failed_in_ci(self):
        self.machine("python3")
        status, out, err = self.run_with("tests/run", "true")
        self.assertEqual((status, out), (1, ["0 passed, 1 failed"]))
        self.assertIn("python3 isn't installed", err)


class Gate(Machine):
    def test_what_is_missing_is_installed_in_ci_alone(self):
        self.machine("cc", "openssl")
        self.assertEqual(self.run_with(".ci/run", None)[:2], (1, ["0 passed, 1 failed (stub)"]))
        self.assertEqual(self.told(), [])
        self.assertEqual(self.run_with(".ci/run", "true")[:2], (1, ["0 passed, 1 failed (stub)"]))
        installs = "apt-get install -y -qq --no-install-recommends gcc libc6-dev openssl"
        self.assertEqual(self.told(), ["apt-get update -qq", installs])

    def test_nothing_is_installed_where_all_is_there(self):
        self.machine()
        self.assertEqual(self.run_with(".ci/run", "true")[0], 1)
        self.assertEqual(self.told(), [])


class Skipped(unittest.TestCase):
    """The keys of passwords need the shared library, whose path is left out here."""

    def checks(self, nothing_skipped):
        environment = dict(os.environ, SN_LIBRARY="", SN_NOTHING_SKIPPED=nothing_skipped)
        command = [sys.executable, "checks.py", "test_keys"]
        here = os.path.dirname(os.path.abspath(__file__))
        done = subprocess.run(command, cwd=here, env=environment, stdout=subprocess.PIPE, text=True)
        return done.returncode, done.stdout.splitlines()

    def test_by_name(self):
        status, lines = self.checks("")
        self.assertEqual((status, lines[-1]), (0, "0 passed, 0 failed, 3 skipped"))
        self.assertTrue(any(line.startswith("skipped: test_keys.Keys (3), since ") for line in lines), lines)

    def test_failed_in_ci(self):
        status, lines = self.checks("yes")
        self.assertEqual((status, lines[-1]), (1, "0 passed, 3 failed"))


if __name__ == "__main__":
    unittest.main()

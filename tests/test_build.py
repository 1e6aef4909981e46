"""The script `sn` from the state of a fresh clone: one build at a time, and no half program, whatever is cut off."""

import os
import pty
import select
import shutil
import signal
import subprocess
import unittest

import scratch

# A copy that is cut off in its middle.
HALF_COPY = r"""#!/usr/bin/env bash
case "$2" in
    */.built/*) head -c 10 "$1" >"$2"; chmod +x "$2"; echo >"$SCRATCH/half"; sleep 60 ;;
    *) exec /bin/cp "$@" ;;
esac
"""


class Builds(unittest.TestCase):
    without = ()

    def setUp(self):
        self.clone = scratch.Clone(without=self.without)
        self.addCleanup(self.clone.close)

    def answers(self, ended, word, given):
        self.assertEqual(ended[:2], (0, b"program %s\n%s" % (word, given)), ended[2])

    def one_program(self):
        kept = self.clone.kept()
        self.assertEqual([name[:3] for name in kept], ["sn-"])
        return kept[0]

    def test_two_at_once(self):
        self.clone.write("hold", "")
        first, second = self.clone.start("one"), self.clone.start("two")
        self.clone.wait_for(self.clone.builds)
        self.clone.remove("hold")
        first, second = self.clone.ended(first, b"left"), self.clone.ended(second, b"right")
        self.answers(first, b"one", b"left")
        self.answers(second, b"two", b"right")
        self.assertEqual(self.clone.builds(), 1)
        self.assertEqual((first[2] + second[2]).count("another build is going on here"), 1)
        self.one_program()

    def test_a_pipe(self):
        self.assertEqual(self.clone.run(shell="echo x | ./sn a | ./sn b")[:2], (0, b"program b\nprogram a\nx\n"))
        self.assertEqual(self.clone.builds(), 1)

    def test_a_program_that_the_gate_proved(self):
        proved = os.path.join(self.clone.scratch, "program")
        self.clone.environment["SN_PROVED"] = proved
        self.answers(self.clone.run("word", given=b"text"), b"word", b"text")
        self.assertEqual(self.clone.builds(), 0)
        first = self.one_program()
        del self.clone.environment["SN_PROVED"]
        self.answers(self.clone.run("word"), b"word", b"")
        self.assertEqual((self.clone.builds(), self.one_program()), (0, first))
        self.clone.write("clone/crates/sn_low/src/lib.rt", "// changed\n")
        self.answers(self.clone.run("word"), b"word", b"")
        self.assertEqual(self.clone.builds(), 1)
        self.assertNotEqual(self.one_program(), first)

    def test_a_program_that_is_not_there(self):
        self.clone.environment["SN_PROVED"] = os.path.join(self.clone.scratch, "nothing")
        status, out, err = self.clone.run("word")
        self.assertEqual((status, out, self.clone.builds()), (1, b"", 0))
        self.assertIn("sn: the program can't be written to .built\n", err)
        self.assertEqual(self.clone.kept(), [])

    def test_how_far_it_is(self):
        status, out, err = self.clone.run("word")
        self.assertEqual((status, out), (0, b"program word\n"))
        for line in (
            "crate 1 of 2: sn_low",
            "crate 1 of 2: sn_low, 7 of 40 functions checked",
            "crate 1 of 2: sn_low, 40 functions proved",
            "crate 2 of 2: sn_cli, 1 functions proved",
            "built",
        ):
            self.assertIn("sn: %s\n" % line, err)
        self.assertEqual(self.clone.run("again"), (0, b"program again\n", ""))
        self.assertEqual(self.clone.builds(), 1)

    def test_a_build_that_fails(self):
        self.clone.write("refuses", "")
        status, out, err = self.clone.run("word")
        self.assertEqual((status, out), (1, b""))
        self.assertIn("fn sn_cli::main: not proved\n", err)
        self.assertEqual(self.clone.kept(), [])
        self.clone.remove("refuses")
        self.answers(self.clone.run("word"), b"word", b"")

    def test_no_program_of_an_earlier_build_counts(self):
        self.clone.run("word")
        self.clone.write("clone/crates/sn_low/src/lib.rt", "// another\n")
        self.clone.write("refuses", "")
        self.assertEqual(self.clone.run("word")[:2], (1, b""))

    def test_changed_sources_are_built_again(self):
        self.clone.run("word")
        before = self.one_program()
        self.clone.write("clone/crates/sn_other/src/lib.rt", "// a crate that the program doesn't stand on\n")
        self.assertEqual(self.clone.run("word")[2], "")
        self.clone.write("clone/crates/sn_low/src/lib.rt", "// another\n")
        self.answers(self.clone.run("word"), b"word", b"")
        self.assertNotEqual(self.one_program(), before)

    def test_sources_that_change_in_a_build(self):
        self.clone.write("edits", "")
        status, out, err = self.clone.run("word")
        self.assertEqual((status, out), (1, b""))
        self.assertIn("the sources changed", err)
        self.assertEqual(self.clone.kept(), [])

    def killed(self, how):
        self.clone.write("hold", "")
        before = self.clone.builds()
        process = self.clone.start("word")
        self.clone.wait_for(lambda: self.clone.builds() > before)
        process.send_signal(how)
        process.wait(timeout=120)
        self.assertEqual([name for name in self.clone.kept() if name != "building"], [])
        self.clone.remove("hold")
        return process.returncode

    def test_ended_in_a_build(self):
        for status, how in ((143, signal.SIGTERM), (130, signal.SIGINT), (129, signal.SIGHUP)):
            self.assertEqual(self.killed(how), status)
            self.assertEqual(self.clone.kept(), [])
        self.answers(self.clone.run("word"), b"word", b"")
        self.one_program()

    def test_killed_in_a_build(self):
        self.killed(signal.SIGKILL)
        self.answers(self.clone.run("word"), b"word", b"")
        self.one_program()

    def killed_in_writing(self):
        copy = os.path.join(self.clone.scratch, "bin", "cp")
        os.remove(copy)
        self.clone.write("bin/cp", HALF_COPY)
        os.symlink(shutil.which("head"), os.path.join(self.clone.scratch, "bin", "head"))
        process = self.clone.start("word")
        self.clone.wait_for(lambda: os.path.exists(os.path.join(self.clone.scratch, "half")))
        os.killpg(process.pid, signal.SIGKILL)
        process.wait(timeout=120)
        self.assertFalse([name for name in self.clone.kept() if name.startswith("sn-")])
        self.clone.remove("bin/cp")
        os.symlink(shutil.which("cp"), copy)

    def test_killed_in_writing_the_program(self):
        self.killed_in_writing()
        self.answers(self.clone.run("word"), b"word", b"")
        self.one_program()

    def test_without_the_toolchain(self):
        self.clone.remove("bin/rt")
        self.assertEqual(self.clone.run("word"), (1, b"", "sn: the toolchain's command rt is not on the path\n"))


USAGE = r"""#!/usr/bin/env bash
if [ "$1" = --version ]; then exit 0; fi
echo "sn: usage" >&2
exit "${2-2}"
"""


class AtATerminal(unittest.TestCase):
    """A faulty command line gets a hint, at a terminal alone."""

    def setUp(self):
        self.clone = scratch.Clone()
        self.addCleanup(self.clone.close)
        self.clone.write("program", USAGE)
        self.assertEqual(self.clone.run("frob")[0], 2)

    def told(self, *words):
        """Status, and what comes to a terminal as standard error."""
        terminal, inside = pty.openpty()
        try:
            done = subprocess.run(["./sn", *words], cwd=self.clone.top, env=self.clone.environment, stdin=subprocess.DEVNULL, stderr=inside)
            read = b""
            while select.select([terminal], [], [], 0.3)[0]:
                read += os.read(terminal, 65536)
            return done.returncode, read.decode().replace("\r\n", "\n")
        finally:
            os.close(terminal)
            os.close(inside)

    def test_a_hint(self):
        status, text = self.told("frob")
        self.assertEqual((status, text.splitlines()[0], len(text.splitlines())), (2, "sn: usage", 2))
        self.assertIn("./sn --help", text)

    def test_none(self):
        self.assertEqual(self.clone.run("frob")[2], "sn: usage\n")
        self.assertEqual(self.told("frob", "3"), (3, "sn: usage\n"))
        self.assertEqual(self.told("serve"), (2, "sn: usage\n"))


class WithoutFlock(Builds):
    """The same where `flock` isn't installed. A build that was killed leaves its lock, which is then removed by hand."""

    without = ("flock",)

    def left_lock(self):
        status, out, err = self.clone.run("word")
        self.assertEqual((status, out), (1, b""))
        self.assertIn("remove it, and run this again", err)
        shutil.rmtree(os.path.join(self.clone.top, ".built", "building"))

    def test_killed_in_a_build(self):
        self.killed(signal.SIGKILL)
        self.left_lock()
        self.answers(self.clone.run("word"), b"word", b"")
        self.one_program()

    def test_killed_in_writing_the_program(self):
        self.killed_in_writing()
        self.left_lock()
        self.answers(self.clone.run("word"), b"word", b"")
        self.one_program()

    def test_a_lock_without_a_name(self):
        os.makedirs(os.path.join(self.clone.top, ".built", "building"))
        self.left_lock()
        self.answers(self.clone.run("word"), b"word", b"")

    def test_a_program_that_the_gate_proved(self):
        proved = os.path.join(self.clone.scratch, "program")
        self.clone.environment["SN_PROVED"] = proved
        self.answers(self.clone.run("word", given=b"text"), b"word", b"text")
        self.assertEqual(self.clone.builds(), 0)
        first = self.one_program()
        del self.clone.environment["SN_PROVED"]
        self.answers(self.clone.run("word"), b"word", b"")
        self.assertEqual((self.clone.builds(), self.one_program()), (0, first))
        self.clone.write("clone/crates/sn_low/src/lib.rt", "// changed\n")
        self.answers(self.clone.run("word"), b"word", b"")
        self.assertEqual(self.clone.builds(), 1)
        self.assertNotEqual(self.one_program(), first)

    def test_a_program_that_is_not_there(self):
        self.clone.environment["SN_PROVED"] = os.path.join(self.clone.scratch, "nothing")
        status, out, err = self.clone.run("word")
        self.assertEqual((status, out, self.clone.builds()), (1, b"", 0))
        self.assertIn("sn: the program can't be written to .built\n", err)
        self.assertEqual(self.clone.kept(), [])

    def test_how_far_it_is(self):
        self.assertIn("sn: flock is not installed", self.clone.run("word")[2])


if __name__ == "__main__":
    unittest.main()

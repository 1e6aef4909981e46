"""The commands of the README's 'Try it': on the built program, and each as the first command of a fresh clone, where
`./sn` is built by the stub of the toolchain, which puts the built program there."""

import os
import re
import shutil
import socket
import subprocess
import tempfile
import unittest

import program
import scratch

NEEDED = ("curl", "diff", "openssl")
MISSING = [name for name in NEEDED if shutil.which(name) is None]


SESSION = "A note on two devices"


def section():
    with open(os.path.join(program.TOP, "README.md")) as file:
        return file.read().split("\n## Try it\n")[1].split("\n## ")[0]


def blocks_of(text):
    """The blocks of commands, in order."""
    found = re.findall(r"(?:^    .*\n)+", text, re.M)
    return [re.sub(r"^    ", "", block, flags=re.M) for block in found]


def session():
    """The blocks that follow one another in one shell."""
    return blocks_of(section().split("\n### %s\n" % SESSION)[1].split("\n### ")[0])


def blocks():
    """The others, each of which stands alone."""
    return [block for block in blocks_of(section()) if block not in session()]


def at_a_free_port(block):
    """The block with a port that is free in place of the one that it names, and that port."""
    with socket.create_server(("127.0.0.1", 0)) as listener:
        port = str(listener.getsockname()[1])
    return block.replace("8003", port), port.encode()


def report():
    with open(os.path.join(program.TOP, "examples", "one-note.report"), "rb") as file:
        return file.read()


@unittest.skipIf(MISSING, "%s isn't installed" % " and ".join(MISSING))
class TryIt(unittest.TestCase):
    def wanted(self):
        """What each block writes, in order."""
        served = b'listening 8003\n{"error":{"tag":"unknown"}}'
        summed = b"events 13\nitems 5\nversions 5\nforks 0\ndrafts 0\n"
        return [b"sn 0.1.0\n", report(), b"as worked out by hand\n", summed, served, b"my note"]

    def test_each_is_known(self):
        self.assertEqual(len(blocks()), len(self.wanted()))
        self.assertIn("./sn seal", blocks()[-1])
        self.assertIn("| ./sn open", blocks()[-1])

    def test_on_the_built_program(self):
        with tempfile.TemporaryDirectory() as folder:
            for name in ("sn", "examples"):
                os.symlink(os.path.realpath(os.path.join(program.TOP, name)), os.path.join(folder, name))
            for block, wanted in zip(blocks(), self.wanted()):
                block, port = at_a_free_port(block)
                wanted = wanted.replace(b"8003", port)
                pipes = dict(stdin=subprocess.DEVNULL, stdout=subprocess.PIPE, stderr=subprocess.PIPE)
                done = subprocess.run(["bash", "-eo", "pipefail", "-c", block], cwd=folder, **pipes)
                self.assertEqual((done.returncode, done.stdout, done.stderr), (0, wanted, b""), block)

    def test_each_as_the_first_of_a_fresh_clone(self):
        for block, wanted in zip(blocks(), self.wanted()):
            block, port = at_a_free_port(block)
            wanted = wanted.replace(b"8003", port)
            clone = scratch.Clone(built=program.SN, with_tools=NEEDED)
            self.addCleanup(clone.close)
            shutil.copytree(os.path.join(program.TOP, "examples"), os.path.join(clone.top, "examples"))
            status, out, err = clone.run(shell="set -e\n" + block)
            self.assertEqual((status, out), (0, wanted), block + err)
            self.assertEqual(clone.builds(), 1, block)
            self.assertEqual([name[:3] for name in clone.kept()], ["sn-"], block)


class TwoDevices(unittest.TestCase):
    """The path to a note on two devices, its blocks one after another in one shell."""

    # A command may come before the server listens; a reader isn't so fast.
    LISTENS = "until (exec 3<>/dev/tcp/127.0.0.1/%s) 2>/dev/null; do sleep 0.05; done\n"

    def script(self):
        first, *others = session()
        self.assertIn("./sn serve", first)
        self.assertIn("kill %1", others[-1])
        script, port = at_a_free_port(first + self.LISTENS % 8003 + "".join(others))
        return "set -e\n" + script, port

    def written(self, port):
        uuid = rb"([0-9a-f-]{36})\n"
        note = rb'{"references":[],"text":"%s\n","title":"Shopping"}'
        changed = note % b"milk, bread, salt"
        length = len(note % b"milk, bread")
        lines = [b"listening %s\n" % port, b"ok\n", uuid, b"ok\n", b"ok\n", b"ok\n", rb'\1 clean %d "Note"\n' % length, b"ok\n", b"ok\n", b"ok\n"]
        return b"".join(lines) + re.escape(changed) + b"ok\nok\nok\nin none of these files\n"

    def told(self, err):
        """What isn't said of the server's end by the shell."""
        return [line for line in err.splitlines() if "Terminated" not in line]

    def test_on_the_built_program(self):
        script, port = self.script()
        with tempfile.TemporaryDirectory() as folder:
            os.symlink(os.path.realpath(os.path.join(program.TOP, "sn")), os.path.join(folder, "sn"))
            done = subprocess.run(["bash", "-c", script], cwd=folder, stdin=subprocess.DEVNULL, capture_output=True, timeout=120)
            self.assertEqual((done.returncode, self.told(done.stderr.decode())), (0, []))
            self.assertRegex(done.stdout, re.compile(self.written(port)))
            self.assertEqual(os.stat(os.path.join(folder, "password")).st_mode & 0o777, 0o600)

    def test_as_the_first_commands_of_a_fresh_clone(self):
        script, port = self.script()
        clone = scratch.Clone(built=program.SN, with_tools=("openssl", "sed", "grep"))
        self.addCleanup(clone.close)
        status, out, err = clone.run(shell=script)
        self.assertEqual(status, 0, err)
        self.assertRegex(out, re.compile(self.written(port)))
        self.assertEqual(clone.builds(), 1)


class NoPassword(unittest.TestCase):
    def test_none_is_a_word_of_a_command(self):
        for block in session():
            for line in block.splitlines():
                self.assertNotRegex(line, r"--password|\$password\b.* \./sn|echo .*pass")


if __name__ == "__main__":
    unittest.main()

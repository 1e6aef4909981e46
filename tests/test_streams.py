"""The program over real streams: inputs that can't be read, outputs that take nothing or little, and closed ones."""

import os
import resource
import signal
import socket
import subprocess
import tempfile
import unittest

import program

SCRIPT = b"cost 1\nclock 1000\nregister A alice p1\nshow\n"


def readers():
    """Each command that reads, with an input that it takes."""
    sealed = program.run(program.seal_words(), b"a note")[1]
    return (
        (program.seal_words(), b"a note"),
        (program.open_words(), sealed),
        (["show"], sealed[:-1]),
        (["replay"], SCRIPT),
    )


def run_with(words, given=b"", before=None, **streams):
    """Status, standard output and standard error of a run with other streams."""
    streams = {"stdout": subprocess.PIPE, "stderr": subprocess.PIPE, **streams}
    if "stdin" not in streams:
        streams["input"] = given
    done = subprocess.run([program.SN] + words, preexec_fn=before, **streams)
    return done.returncode, done.stdout, done.stderr


class Input(unittest.TestCase):
    def test_a_directory(self):
        for words, _ in readers():
            directory = os.open("/", os.O_RDONLY)
            try:
                found = run_with(words, stdin=directory)
            finally:
                os.close(directory)
            self.assertEqual(found, (6, b"", b"sn: read fault\n"), words)

    def test_a_closed_descriptor(self):
        for words, _ in readers():
            found = run_with(words, stdin=subprocess.DEVNULL, before=lambda: os.close(0))
            self.assertEqual(found, (6, b"", b"sn: read fault\n"), words)

    def test_a_descriptor_that_only_writes(self):
        for words, _ in readers():
            with open(os.devnull, "wb") as writer:
                self.assertEqual(run_with(words, stdin=writer), (6, b"", b"sn: read fault\n"), words)

    def test_a_read_that_fails_later(self):
        """The peer of a socket is gone, with something unread: what it had sent is read, and the next read fails."""
        for words, given in readers():
            peer, end = socket.socketpair()
            with peer, end:
                peer.sendall(given)
                end.sendall(b"unread")
                peer.close()
                self.assertEqual(run_with(words, stdin=end), (6, b"", b"sn: read fault\n"), words)

    def test_what_reads_nothing(self):
        """A question and a faulty line end as they do over any input."""
        usage = 2, b"", b"sn: usage\n"
        for words, found in (
            (["--version"], (0, b"sn 0.1.0\n", b"")),
            ([], usage),
            (program.seal_words()[:-1], usage),
            (program.open_words() + ["x"], usage),
            (["show", "--uuid", program.UUID], usage),
            (["replay", "--cost", "1"], usage),
            (["gen", "--number", "1", "--count", "0"], usage),
            (["serve", "--store", "server", "--port", "00", "--requests", "1"], usage),
        ):
            with open(os.devnull, "wb") as writer:
                self.assertEqual(run_with(words, stdin=writer), found, words)

    def test_small_pieces(self):
        for words, given in readers():
            child = subprocess.Popen([program.SN] + words, stdin=subprocess.PIPE, stdout=subprocess.PIPE, bufsize=0)
            for place in range(len(given)):
                child.stdin.write(given[place : place + 1])
            out, _ = child.communicate()
            self.assertEqual(child.returncode, 0, words)
            self.assertEqual(len(out), len(program.run(words, given)[1]), words)


class Output(unittest.TestCase):
    FAULT = b"sn: write fault\n"

    def lines(self):
        """Each command and each question, with an input that it takes."""
        questions = (["--help"], ["--version"], ["seal", "--help"])
        return readers() + tuple((words, b"") for words in questions)

    def test_a_full_device(self):
        for words, given in self.lines():
            with open("/dev/full", "wb") as full:
                self.assertEqual(run_with(words, given, stdout=full), (7, None, self.FAULT), words)

    def test_a_closed_descriptor(self):
        for words, given in self.lines():
            found = run_with(words, given, stdout=subprocess.DEVNULL, before=lambda: os.close(1))
            self.assertEqual(found, (7, None, self.FAULT), words)

    def test_a_pipe_that_nobody_reads(self):
        for words, given in self.lines():
            reader, writer = os.pipe()
            os.close(reader)
            try:
                found = run_with(words, given, stdout=writer)
            finally:
                os.close(writer)
            self.assertEqual(found, (7, None, self.FAULT), words)

    def test_a_short_write_goes_on(self):
        # The file may grow to 100 bytes: the first write takes so many, and the next one fails.
        def limit():
            signal.signal(signal.SIGXFSZ, signal.SIG_IGN)
            resource.setrlimit(resource.RLIMIT_FSIZE, (100, 100))

        for words, given in self.lines():
            whole = program.run(words, given)[1]
            with tempfile.TemporaryFile() as file:
                status, _, err = run_with(words, given, before=limit, stdout=file)
                file.seek(0)
                taken = file.read()
            if len(whole) <= 100:
                self.assertEqual((status, taken, err), (0, whole, b""), words)
            else:
                self.assertEqual((status, len(taken), err), (7, 100, self.FAULT), words)
                if words[0] != "seal" or "--help" in words:
                    self.assertEqual(taken, whole[:100], words)

    def test_an_output_larger_than_a_pipe(self):
        plain = b"a" * 1000000
        sealed = program.run(program.seal_words(), plain)[1]
        self.assertEqual(program.run(program.open_words(), sealed), (0, plain, b""))


class Errors(unittest.TestCase):
    def test_a_fault_of_standard_error_changes_no_status(self):
        for words, given, status in ((["frob"], b"", 2), (["show"], b"x", 3), (program.seal_words(), b"x", 0)):
            with open("/dev/full", "wb") as full:
                self.assertEqual(run_with(words, given, stderr=full)[0], status, words)
            found = run_with(words, given, stderr=subprocess.DEVNULL, before=lambda: os.close(2))
            self.assertEqual(found[0], status, words)


class Words(unittest.TestCase):
    def test_a_word_that_is_not_utf8(self):
        for words in ([b"\xff"], ["show", b"\xc3"], program.open_words() + [b"\xed\xa0\x80"]):
            self.assertEqual(run_with(words), (2, b"", b"sn: usage\n"), words)


if __name__ == "__main__":
    unittest.main()

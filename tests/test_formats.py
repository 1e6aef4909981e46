"""The worked file of docs/FORMATS.md and payloads worked out by hand, read by the independent reader and, built as a library, by the
proved one."""

import ctypes
import os
import random
import re
import unittest

import journal
import program
import row_bytes

LIBRARY = os.environ.get("SN_LIBRARY")
REFUSED = (1 << 64) - 1
ROW = re.compile(r"\| (\d+) \| `([0-9a-f]{2}(?: [0-9a-f]{2})*)` \| .* \|")


def worked_file():
    """The bytes of the table, each row at its place."""
    with open(os.path.join(program.TOP, "docs", "FORMATS.md")) as file:
        text = file.read().split("### A worked file\n")[1].split("\n#")[0]
    found = b""
    for line in text.splitlines():
        row = ROW.fullmatch(line)
        if row:
            assert int(row[1]) == len(found), line
            found += bytes.fromhex(row[2])
    return found


class Worked(unittest.TestCase):
    def test_it_is_read(self):
        file = worked_file()
        self.assertEqual(len(file), 80)
        (payload,) = journal.payloads(file, b"S")
        self.assertEqual(len(payload), 58)
        self.assertEqual(journal.changes(payload, b"S"), [(1, (), (bytes(range(32)), 0, 0))])

    def test_a_closed_gate(self):
        file = worked_file()
        for gate in (0, 2, 255):
            self.assertEqual(journal.payloads(file[:16] + bytes([gate]) + file[17:], b"S"), [])

    def test_a_last_gate_that_is_open_or_missing(self):
        file = worked_file()
        for other in (file[:79] + b"\1", file[:79]):
            with self.assertRaises(journal.Damaged) as refusal:
                journal.payloads(other, b"S")
            self.assertEqual(refusal.exception.args, (79,))

    def test_another_owner(self):
        with self.assertRaises(journal.Foreign) as refusal:
            journal.payloads(worked_file(), b"D")
        self.assertEqual(refusal.exception.args, (14,))


class Payloads(unittest.TestCase):
    def told(self, payload):
        try:
            return "Ok", len(journal.changes(payload, b"SD"))
        except journal.Fault as fault:
            return fault.args

    def test_they_are_read(self):
        for payload, *told in row_bytes.rows():
            self.assertEqual(self.told(payload), tuple(told), payload[:80].hex())


@unittest.skipUnless(LIBRARY, "the proved functions are no shared library, as tests/run makes one where `cc` is installed")
class Proved(unittest.TestCase):
    """The proved reader takes just the files that the independent one takes, and finds as many rows of a kind."""

    @classmethod
    def setUpClass(cls):
        library = ctypes.CDLL(LIBRARY)
        cls.range, cls.read, cls.write = library.sn_bench_range_rows, library.sn_bench_read_rows, library.sn_bench_write_rows
        for function in (cls.range, cls.read, cls.write):
            function.restype = ctypes.c_uint64

    def agree(self, file):
        try:
            rows = journal.rows(file, b"S")
        except (journal.Foreign, journal.Damaged, journal.Fault):
            rows = None
        for kind in journal.KINDS[b"S"]:
            wanted = REFUSED if rows is None else sum(1 for key in rows if key[0] == kind)
            found = self.range(file, ctypes.c_size_t(len(file)), ctypes.c_uint8(kind), ctypes.c_uint64(1))
            self.assertEqual(found, wanted, (kind, file.hex()))
        return rows is not None

    def test_payloads(self):
        """What is read is written with as many bytes."""
        for payload, told, count in row_bytes.rows():
            given = payload, ctypes.c_size_t(len(payload))
            taken = told == "Ok"
            self.assertEqual(self.read(*given), count if taken else REFUSED, payload[:80].hex())
            if taken:
                self.assertEqual(self.write(*given, ctypes.c_uint64(1)), len(payload), payload[:80].hex())

    def test_the_worked_file(self):
        self.assertTrue(self.agree(worked_file()))

    def test_each_front_and_each_changed_byte(self):
        file = worked_file()
        for place in range(len(file) + 1):
            self.agree(file[:place])
        for place in range(len(file)):
            for byte in (0, 1, 2, 3, 4, 5, 47, 48, 49, 57, 59, 128, 255):
                self.agree(file[:place] + bytes([byte]) + file[place + 1 :])

    def test_random_rows(self):
        rng = random.Random(20261127)
        taken = sum(self.agree(random_file(rng)) for _ in range(2000))
        self.assertTrue(400 < taken < 1900, taken)


def counted(data):
    return len(data).to_bytes(4, "big") + data


def number(value, count=8):
    return value.to_bytes(count, "big")


def random_text(rng, *sizes):
    return counted(bytes(rng.choice(b"ab:\xc3\xa9") if rng.random() < 0.02 else 97 for _ in range(rng.choice(sizes))))


def random_change(rng):
    """A change that is mostly in form, and at times just out of it."""
    stamp = lambda: number(rng.choice([0, 1, 1000, journal.LAST_STAMP, journal.LAST_STAMP + (rng.random() < 0.1)]))
    kind = rng.choice([1, 2, 3, 4, 4, 4] + [17] * (rng.random() < 0.05))
    name = {1: b"", 2: number(rng.randint(1, 3)), 3: number(1) + number(rng.randint(1, 3)), 4: bytes([rng.randint(0, 3)] * 16)}
    if rng.random() < 0.2:
        return bytes([0, kind]) + counted(name.get(kind, b""))
    if kind == 1:
        data = rng.randbytes(32) + stamp() + number(rng.randint(0, 9))
    elif kind == 2:
        data = random_text(rng, 1, 254, 9, 9, rng.choice([0, 255, 5])) + number(1) + rng.randbytes(32)
    elif kind == 3:
        data = number(rng.choice([1, 110000, 1, rng.randint(0, 1)]), 4) + random_text(rng, 1, 64, 256, rng.choice([0, 257, 5]))
    else:
        texts = random_text(rng, 4, 1, 255, rng.choice([0, 256, 4])), random_text(rng, 0, 90), random_text(rng, 0, 90)
        data = number(1) + texts[0] + stamp() + stamp() + bytes([rng.randint(0, 1 + (rng.random() < 0.1))]) + texts[1] + texts[2]
    if rng.random() < 0.03:
        data = data[:-1] if rng.random() < 0.5 else data + b"\0"
    return bytes([1, kind]) + counted(name.get(kind, b"")) + counted(data)


def random_file(rng):
    file = b"SNSYNC-JOURNALS1"
    for _ in range(rng.randint(0, 4)):
        payload = b"".join(random_change(rng) for _ in range(rng.randint(0, 3)))
        file += b"\1" + counted(payload)
    return file + b"\0" + rng.randbytes(rng.choice([0, 0, 3]))


if __name__ == "__main__":
    unittest.main()

"""Summaries of scripts that are made from a number: the worked ones, and more of them beside a generator in plain Python, whose
scripts `sn replay` carries out, and whose reports are counted here."""

import os
import subprocess
import unittest

import model
import program

OPENING = ["cost 1", "clock 1", "register A gen p", "signin B gen p"]
CLOSING = ["sync A", "sync B", "sync A"]

# The events that the rules make, worked out by hand.
EVENTS_1 = ["sync A", 'put A {"n":2}', 'put B {"n":3}', 'edit B #2 {"n":4}', 'put A {"n":5}', 'put A {"n":6}', "sync B drop-reply", 'put A {"n":8}']
WORKED = {(1, 3): (8, 2, 2, 0, 0), (1, 8): (13, 5, 5, 0, 0)}
# Others: the bounds of the number, an edit that is a put where its device put none, and edits of what each device put last.
EVENTS = {
    (0, 1): ['put B {"n":1}'],
    (65536, 1): ['put A {"n":1}'],
    (6, 4): ['put B {"n":1}', "sync B", "sync A drop-reply", 'put A {"n":4}'],
    (19, 6): ['put B {"n":1}', 'put A {"n":2}', 'put B {"n":3}', 'edit B #3 {"n":4}', 'put A {"n":5}', 'edit A #4 {"n":6}'],
}

# Numbers and counts: the bounds, each kind of first event, and lengths at which devices' requests are cut into several.
MADE = [*EVENTS, (0, 2), (0, 40), (1, 1), (1, 8), (2, 100), (3, 7), (4, 60), (5, 61), (6, 62), (7, 63), (7, 300), (8, 9), (149, 25)]
MADE += [(11249, 12), (57305, 13), (31337, 700), (65535, 100), (65536, 33), (65536, 500)]


def events(number, count):
    """The events of a script, a line each."""
    drawn, labels, lines = number, 0, []
    last = {}
    for place in range(1, count + 1):
        drawn = (75 * drawn + 74) % 65537
        device = "AB"[drawn // 8 % 2]
        kind = drawn % 8
        content = '{"n":%d}' % place
        if kind == 4 and device in last:
            lines.append("edit %s #%d %s" % (device, last[device], content))
        elif kind <= 4:
            labels += 1
            last[device] = labels
            lines.append("put %s %s" % (device, content))
        else:
            lines.append("sync %s%s" % (device, " drop-reply" if kind == 7 else ""))
    return lines


def script(number, count, more=()):
    return "".join(line + "\n" for line in OPENING + events(number, count) + CLOSING + list(more))


def counted(report):
    """A summary of a report: items and drafts by the moves that it lists."""
    moves = [line.split(" ", 3)[1:] for line in report.splitlines()]
    kinds = [move[0] for move in moves]
    last, drafts = {}, set()
    for kind, *words in moves:
        if kind == "accept":
            last[words[0]] = not words[1].endswith(" deleted")
        elif kind == "edit":
            drafts.add((words[0], words[1].split(" ")[0]))
        elif kind in ("drop", "giveway") or (kind == "settle" and "@" not in words[1]):
            drafts.discard((words[0], words[1]))
        elif kind in ("fork", "rename"):
            old, new = words[1].split(" ")
            drafts.discard((words[0], old))
            drafts.add((words[0], new))
    return (kinds.count("="), sum(last.values()), kinds.count("accept") + kinds.count("rewrap"), kinds.count("fork"), len(drafts))


def shown(report):
    """The undeleted items and the drafts that the report's last event shows."""
    number = report.splitlines()[-1].split(" ")[0]
    lines = [line.split(" ", 1)[1] for line in report.splitlines() if line.startswith(number + " ")]
    items = [line for line in lines if line.startswith("item ") and not line.endswith(" deleted")]
    return len(items), sum(line.startswith("draft ") for line in lines)


def text(summary):
    return "events %d\nitems %d\nversions %d\nforks %d\ndrafts %d\n" % summary


def words(number, count):
    return ["gen", "--number", str(number), "--count", str(count)]


class Made(unittest.TestCase):
    maxDiff = None

    def writes(self, number, count, summary):
        self.assertEqual(program.run(words(number, count)), (0, text(summary).encode(), b""), (number, count))

    def test_the_worked_scripts(self):
        for count in range(1, len(EVENTS_1) + 1):
            self.assertEqual(events(1, count), EVENTS_1[:count])
        for (number, count), lines in EVENTS.items():
            self.assertEqual(events(number, count), lines)
        for (number, count), summary in WORKED.items():
            self.writes(number, count, summary)

    def test_each_is_the_summary_of_its_replay(self):
        for number, count in MADE:
            status, report, err = program.run(["replay"], script(number, count).encode())
            self.assertEqual((status, err), (0, b""))
            self.writes(number, count, counted(report.decode()))

    def test_each_is_the_summary_of_the_model(self):
        for number, count in MADE:
            report = model.report(script(number, count, ["show"]))
            _, _, versions, forks, _ = counted(report)
            items, drafts = shown(report)
            self.writes(number, count, (count + 5, items, versions, forks, drafts))

    def test_long_ones(self):
        status, report, _ = program.run(["replay"], script(7, 2000, ["show"]).encode())
        self.assertEqual(status, 0)
        report = report.decode()
        made, again = program.run(words(7, 2000)), program.run(words(7, 2000))
        self.assertEqual(made, again)
        found, (items, drafts) = counted(report), shown(report)
        self.assertEqual(made, (0, text((found[0] - 1, items, found[2], found[3], drafts)).encode(), b""))

    def test_five_thousand(self):
        status, out, err = program.run(words(7, 5000))
        self.assertEqual((status, err), (0, b""))
        puts = sum(line.startswith("put ") for line in events(7, 5000))
        lines = out.decode().splitlines()
        self.assertEqual(lines[:2] + lines[3:], ["events 5005", "items %d" % puts, "forks 0", "drafts 0"])
        self.assertGreater(int(lines[2].removeprefix("versions ")), puts)

    def test_the_longest_begins(self):
        with subprocess.Popen([program.SN, *words(7, 100000)], stdout=subprocess.PIPE, stderr=subprocess.PIPE) as running:
            with self.assertRaises(subprocess.TimeoutExpired):
                running.wait(1)
            running.kill()
            self.assertEqual(running.communicate(), (b"", b""))

    def test_the_order_of_the_options_is_free(self):
        self.assertEqual(program.run(["gen", "--count=8", "--number=1"]), (0, text(WORKED[1, 8]).encode(), b""))


class Lines(unittest.TestCase):
    def is_usage(self, given):
        self.assertEqual(program.run(given), (2, b"", b"sn: usage\n"), given)

    def test_values_at_and_past_their_bounds(self):
        for number in ("65537", "4294967296", "18446744073709551616", "-1", "+1", "01", "00", "1 ", "0x1", "a", ""):
            self.is_usage(["gen", "--number", number, "--count", "1"])
        for count in ("0", "100001", "4294967297", "-1", "+1", "01", "1.0", "1e3", "a", ""):
            self.is_usage(["gen", "--number", "1", "--count", count])

    def test_missing_doubled_and_unknown_options(self):
        self.is_usage(["gen"])
        self.is_usage(["gen", "--number", "1"])
        self.is_usage(["gen", "--count", "1"])
        self.is_usage(["gen", "--number"])
        self.is_usage(words(1, 3) + ["--number", "1"])
        self.is_usage(words(1, 3) + ["--seed", "1"])
        self.is_usage(words(1, 3) + ["1"])
        self.is_usage(["generate"] + words(1, 3)[1:])

    def test_help(self):
        status, out, err = program.run(["gen", "--help"])
        self.assertEqual((status, err), (0, b""))
        for word in ("sn gen", "--number", "--count", "65536", "100000", "sn gen --number 7 --count 2000"):
            self.assertIn(word, out.decode())


class Streams(unittest.TestCase):
    def run_with(self, **streams):
        done = subprocess.run([program.SN] + words(1, 3), stderr=subprocess.PIPE, **streams)
        return done.returncode, done.stdout, done.stderr

    def test_no_input_is_read(self):
        folder = os.open("/", os.O_RDONLY)
        self.addCleanup(os.close, folder)
        self.assertEqual(self.run_with(stdin=folder, stdout=subprocess.PIPE), (0, text(WORKED[1, 3]).encode(), b""))
        self.assertEqual(program.run(words(1, 3), b"\xff" * 100), (0, text(WORKED[1, 3]).encode(), b""))

    def test_a_write_that_fails(self):
        with open("/dev/full", "wb") as full:
            self.assertEqual(self.run_with(stdin=subprocess.DEVNULL, stdout=full), (7, None, b"sn: write fault\n"))


if __name__ == "__main__":
    unittest.main()

"""Scripts and their reports: the examples, worked out by hand, what the rules say of losses, conflicts and bounds, and random
scripts beside a model of plain values."""

import collections
import concurrent.futures
import glob
import os
import random
import unittest

import model
import program
import random_scripts

EXAMPLES = os.path.join(program.TOP, "examples")
BEGUN = ["cost 1", "clock 1000", "register A alice p1"]
REGISTERED = ["3 register alice set 1", "3 join A alice set 1", "3 = ok"]
TWO = BEGUN + ["signin B alice p1"]
LONGEST = '{"a":"%s"}' % ("x" * 699992)


def replay(script):
    return program.run(["replay"], script.encode())


def text(lines):
    return "".join(line + "\n" for line in lines)


def of_line(number, report):
    """The lines of a report that a line of its script has, without its number."""
    front = "%d " % number
    return [line[len(front) :] for line in report.splitlines() if line.startswith(front)]


class Replays(unittest.TestCase):
    maxDiff = None

    def reports(self, script, report):
        status, out, err = replay(script)
        self.assertEqual((status, err), (0, b""), script[:1000])
        self.assertEqual(out.decode(), report, script[:1000])

    def lines_report(self, lines, last):
        """The program and the model have these lines of a report for the script's last lines: a list for each number."""
        script = text(lines)
        report = model.report(script)
        for number, wanted in last.items():
            self.assertEqual(of_line(number, report), wanted)
        self.reports(script, report)

    def refuses(self, script, number):
        self.assertEqual(replay(script), (3, b"", b"sn: replay.1 Line %d\n" % number), script[:1000])

    def allows_not(self, script, number):
        self.assertEqual(replay(script), (3, b"", b"sn: replay.2 NotAllowed %d\n" % number), script[:1000])


class Examples(Replays):
    def test_each_has_its_report(self):
        scripts = sorted(glob.glob(os.path.join(EXAMPLES, "*.script")))
        self.assertEqual(len(scripts), 9)
        for path in scripts:
            with open(path) as script, open(path[: -len("script")] + "report") as report:
                wanted = report.read()
                given = script.read()
            self.reports(given, wanted)
            self.assertEqual(model.report(given), wanted)


class Worked(Replays):
    def test_the_empty_script(self):
        self.reports("", "")

    def test_settings_alone(self):
        self.reports("seed %064x\ncost 1000000\nclock 18446744073709551615\n" % 7, "")

    def test_one_note(self):
        script = text(BEGUN + ['put A {"title":"x"}', "sync A", "show"])
        report = REGISTERED + [
            '4 edit A #1 {"title":"x"}',
            "4 = ok",
            "5 post A #1",
            "5 accept #1 @1000 set 1",
            "5 settle A #1",
            "5 = ok",
            "6 account alice set 1",
            '6 item #1 @1000 set 1 {"title":"x"}',
            "6 device A alice sets 1",
            "6 = ok",
        ]
        self.reports(script, text(report))
        # The last line feed may be missing.
        self.reports(script[:-1], text(report))

    def test_two_notes_in_one_request(self):
        script = text(BEGUN + ['put A {"n":1}', 'put A {"n":2}', "sync A", "sync A", "show"])
        report = REGISTERED + [
            '4 edit A #1 {"n":1}',
            "4 = ok",
            '5 edit A #2 {"n":2}',
            "5 = ok",
            "6 post A #1",
            "6 post A #2",
            "6 accept #1 @1000 set 1",
            "6 accept #2 @1001 set 1",
            "6 settle A #1",
            "6 settle A #2",
            "6 = ok",
            "7 = ok",
            "8 account alice set 1",
            '8 item #1 @1000 set 1 {"n":1}',
            '8 item #2 @1001 set 1 {"n":2}',
            "8 device A alice sets 1",
            "8 = ok",
        ]
        self.reports(script, text(report))

    def test_two_devices_and_losses(self):
        lines = ["cost 1", "clock 1000", "register a u p", "put a {}", "sync a drop-reply", "sync a", "signin b u p", "sync b"]
        lines += ['edit b #1 {"k":1}', "sync b drop-request", "late b 3", "put c {}", "show"]
        report = ["3 register u set 1", "3 join a u set 1", "3 = ok", "4 edit a #1 {}", "4 = ok"]
        report += ["5 post a #1", "5 accept #1 @1000 set 1", "5 = link", "6 settle a #1", "6 = ok", "7 join b u set 1", "7 = ok", "8 = ok"]
        report += ['9 edit b #1 {"k":1}', "9 = ok", "10 post b #1", "10 = link", "11 = answer 200", "12 = refused client.1 NoAccount"]
        report += ["13 account u set 1", "13 item #1 @1000 set 1 {}", "13 device a u sets 1", "13 device b u sets 1"]
        report += ['13 draft b #1 {"k":1}', "13 device c none", "13 = ok"]
        self.reports(text(lines), text(report))

    def test_who_may_enter_an_account(self):
        last = {
            3: ["= server 404 unknown"],
            4: ["register alice set 1", "join A alice set 1", "= ok"],
            5: ["= server 409 taken"],
            6: ["= server 401 bad-auth"],
            7: ["= refused client.13 HasAccount alice"],
            8: ["= refused client.12 OtherAccount alice"],
            9: ["= refused client.11 WrongPassword"],
        }
        lines = ["cost 1", "clock 1000", "signin A alice p1", "register A alice p1", "register B alice p2", "signin B alice p2"]
        self.lines_report(lines + ["register A ben p", "signin A ben p", "signin A alice p2"], last)

    def test_a_device_that_signs_in_again(self):
        last = {
            5: ["= ok"],
            6: ['edit A #1 {"a":1}', "= ok"],
            7: ["post A #1", "accept #1 @1000 set 1", "settle A #1", "= ok"],
            10: ["account alice set 1", 'item #1 @1000 set 1 {"a":1}', "device A alice sets 1", "device B alice sets 1", "= ok"],
        }
        lines = BEGUN + ["put A {}", "signin A alice p1", 'edit A #1 {"a":1}', "sync A", "signin B alice p1", "sync B", "show"]
        self.lines_report(lines, last)

    def test_stamps_rise_though_the_clock_goes_back(self):
        lines = BEGUN + ["put A {}", "sync A", "clock 5", "put A {}", "sync A"]
        self.lines_report(lines, {8: ["post A #2", "accept #2 @1001 set 1", "settle A #2", "= ok"]})

    def test_stamps_are_used_up(self):
        lines = ["cost 1", "clock 253402300799999999", BEGUN[2], "put A {}", "sync A", "put A {}", "sync A"]
        last = {5: ["post A #1", "accept #1 @253402300799999999 set 1", "settle A #1", "= ok"], 7: ["post A #2", "= server 409 stamps-used"]}
        self.lines_report(lines, last)

    def test_what_a_content_may_be(self):
        """An object of at most 127 levels, without a number that no double has and without half a surrogate pair."""
        deep = ['{"a":' * levels + "1" + "}" * levels for levels in (127, 128)]
        contents = ["{}", " {}\t", '{"a":1,"a":2}', r'{"\ud83d\ude00":-1e-9}', '{"a":18446744073709551616}', '{"a":1e308}', deep[0]]
        wrong = ["", "{", "{} {}", "null", "[{}]", '{"a":1e309}', '{"a":NaN}', '{"a":01}', "{'a':1}", '{"a":"\t"}', r'{"a":"\ud800"}']
        lines = BEGUN + ["put A " + content for content in contents + wrong + [deep[1], "\ufeff{}"]]
        last = {place + 4: ["edit A #%d %s" % (place + 1, content), "= ok"] for place, content in enumerate(contents)}
        last.update((number, ["= refused client.5 NotObject"]) for number in range(11, 11 + len(wrong) + 2))
        self.lines_report(lines, last)

    def test_input_that_is_not_utf8(self):
        for front in (b"show\n", b"cost 1\n"):
            self.assertEqual(program.run(["replay"], front + b"\xff"), (3, b"", b"sn: cli.2 InputUtf8 %d\n" % len(front)))

    def test_a_password_of_any_kind(self):
        self.reports("register A é ü\n", text(["1 register é set 1", "1 join A é set 1", "1 = ok"]))


class Refused(Replays):
    """Scripts that are refused, so that nothing is written."""

    def test_a_line_out_of_the_grammar(self):
        self.refuses(text(BEGUN + ["signin B alice", 'put A {"n":2}', "sync A"]), 4)
        self.refuses(text(BEGUN + ["signup B alice p1", "put A {}", "sync A"]), 4)
        self.refuses("cost 1\r\nclock 1000\r\n", 1)
        self.refuses("cost 1\n\nshow\n", 2)
        self.refuses("show\n\n", 2)
        self.refuses("show \n", 1)
        self.refuses(text(BEGUN + ["put A drop-request"]), 4)
        self.refuses(text(BEGUN + ["put A {}", "sync A stop-device=1:old"]), 5)
        self.refuses(text(BEGUN + ["late A 1 drop-reply"]), 4)
        self.refuses(text(BEGUN + ["passwd A p2 stop-device=1:old"]), 4)
        self.refuses(text(BEGUN + ["passwd A " + "p" * 255]), 4)
        self.refuses("cost 0\n", 1)
        self.refuses("show\nseed %064x\n" % 1, 2)

    def test_an_item_without_a_label(self):
        self.allows_not(text(BEGUN + ["edit A #1 {}", "show"]), 4)
        self.allows_not(text(BEGUN + ["put A {}", "del A #2"]), 5)
        self.allows_not(text(BEGUN + ["put A {}", "del A #0"]), 5)
        self.allows_not(text(BEGUN + ["put A []", "edit A #1 {}"]), 5)
        self.allows_not("cost 1\nedit A #1 {}\n", 2)

    def test_a_request_that_was_never_made(self):
        # The device made one request, its registration.
        self.allows_not(text(BEGUN + ["put A {}", "late A 2"]), 5)
        self.allows_not("register a u p\nlate a 1\nlate a 2\n", 3)
        self.allows_not(text(BEGUN + ["late A 0"]), 4)
        self.allows_not(text(BEGUN + ["late A 18446744073709551617"]), 4)
        self.allows_not(text(BEGUN + ["late B 1", "signin B alice p1"]), 4)

    def test_the_grammar_comes_first(self):
        self.refuses(text(BEGUN + ["late B 1", "edit A 1 {}"]), 5)


class Conflicts(Replays):
    BEFORE = TWO + ['put A {"t":"a"}', "sync A", "sync B", 'edit A #1 {"t":"b"}']

    def test_both_texts_are_kept(self):
        last = {
            10: ["post A #1", "accept #1 @1001 set 1", "settle A #1", "= ok"],
            11: ["post B #1", "fork B #1 #2", "post B #2", "accept #2 @1002 set 1", "settle B #2", "= ok"],
            12: [
                "account alice set 1",
                'item #1 @1001 set 1 {"t":"b"}',
                'item #2 @1002 set 1 {"t":"c","conflict_of":"#1"}',
                "device A alice sets 1",
                "device B alice sets 1",
                "= ok",
            ],
        }
        self.lines_report(self.BEFORE + ['edit B #1 {"t":"c"}', "sync A", "sync B", "show"], last)

    def test_the_same_text(self):
        lines = self.BEFORE + ['edit B #1 {"t":"b"}', "sync A", "sync B"]
        self.lines_report(lines, {11: ["post B #1", "settle B #1", "= ok"]})

    def test_a_deletion_gives_way(self):
        lines = self.BEFORE + ["del B #1", "sync A", "sync B"]
        self.lines_report(lines, {9: ["edit B #1 deleted", "= ok"], 11: ["post B #1", "giveway B #1", "= ok"]})

    def test_an_edit_outlives_a_deletion(self):
        last = {
            10: ["post B #1", "accept #1 @1001 deleted", "settle B #1", "= ok"],
            11: ["post A #1", "fork A #1 #2", "post A #2", "accept #2 @1002 set 1", "settle A #2", "= ok"],
            12: ["account alice set 1", "item #1 @1001 deleted", 'item #2 @1002 set 1 {"t":"b","conflict_of":"#1"}']
            + ["device A alice sets 1", "device B alice sets 1", "= ok"],
        }
        self.lines_report(self.BEFORE + ["del B #1", "sync B", "sync A", "show"], last)

    def test_what_was_never_sent_is_dropped(self):
        last = {5: ["drop A #1", "= ok"], 6: ["account alice set 1", "device A alice sets 1", "= ok"]}
        last.update((number, ["= refused client.2 NoItem #1"]) for number in (7, 8))
        self.lines_report(BEGUN + ["put A {}", "del A #1", "show", "edit A #1 {}", "del A #1"], last)

    def test_copies(self):
        """The member goes behind what is there, with a comma but in the empty object, and white space at the end goes."""
        texts = {
            "{}": '{"conflict_of":"#%d"}',
            "{ }": '{ "conflict_of":"#%d"}',
            '{"title":"a"}': '{"title":"a","conflict_of":"#%d"}',
            '{"a":1} ': '{"a":1,"conflict_of":"#%d"}',
            '{"conflict_of":"x"}': '{"conflict_of":"x","conflict_of":"#%d"}',
        }
        labels = range(1, 6)
        lines = TWO + ['put A {"n":0}'] * 5 + ["sync A", "sync B"]
        lines += ['edit A #%d {"n":1}' % label for label in labels]
        lines += ["edit B #%d %s" % (label, own) for label, own in zip(labels, texts)]
        items = ['item #%d @%d set 1 {"n":1}' % (label, 1004 + label) for label in labels]
        items += ["item #%d @%d set 1 %s" % (label + 5, 1009 + label, copy % label) for label, copy in zip(labels, texts.values())]
        shown = ["account alice set 1", *items, "device A alice sets 1", "device B alice sets 1", "= ok"]
        self.lines_report(lines + ["sync A", "sync B", "show"], {24: shown})


class Losses(Replays):
    def test_a_lost_request(self):
        last = {
            5: ["post A #1", "= link"],
            6: ["account alice set 1", "device A alice sets 1", 'draft A #1 {"n":1}', "= ok"],
            7: ["accept #1 @1000 set 1", "settle A #1", "= ok"],
        }
        self.lines_report(BEGUN + ['put A {"n":1}', "sync A drop-request", "show", "sync A"], last)

    def test_a_lost_answer_and_a_late_request(self):
        last = {
            5: ["post A #1", "accept #1 @1000 set 1", "= link"],
            6: ['edit A #1 {"t":"y"}', "= ok"],
            7: ["settle A #1 @1000", "post A #1", "accept #1 @1001 set 1", "settle A #1", "= ok"],
            8: ["= answer 200"],
        }
        self.lines_report(BEGUN + ['put A {"t":"x"}', "sync A drop-reply", 'edit A #1 {"t":"y"}', "sync A", "late A 2"], last)

    def test_two_lost_answers(self):
        """What the first answer settles stays, and the second edit was accepted too. The deletion stands on that."""
        last = {
            5: ["post A #1", "accept #1 @1000 set 1", "= link"],
            7: ["settle A #1 @1000", "post A #1", "accept #1 @1001 set 1", "= link"],
            8: ["account alice set 1", 'item #1 @1001 set 1 {"t":"y"}', "device A alice sets 1", 'draft A #1 {"t":"y"}', "= ok"],
            9: ["edit A #1 deleted", "= ok"],
            11: ["account alice set 1", "item #1 @1002 deleted", "device A alice sets 1", "= ok"],
        }
        lines = BEGUN + ['put A {"t":"x"}', "sync A drop-reply", 'edit A #1 {"t":"y"}', "sync A drop-reply=2", "show"]
        self.lines_report(lines + ["del A #1", "sync A", "show"], last)

    def test_a_lost_registration(self):
        last = {
            1: ["= link"],
            2: ["device A none", "= ok"],
            3: ["register alice set 1", "= answer 200"],
            4: ["= answer 409"],
            5: ["= server 409 taken"],
            6: ["join A alice set 1", "= ok"],
        }
        lines = ["register A alice p drop-request", "show", "late A 1", "late A 1", "register A alice p", "signin A alice p"]
        self.lines_report(lines, last)

    def test_a_lost_sign_in(self):
        """The parameters are asked for first, and then the sign-in."""
        lines = BEGUN + ["signin B alice p1 drop-reply=2", "signin B carol p1", "signin B alice p1", "late B 3", "late B 5"]
        ends = {4: ["= link"], 5: ["= server 404 unknown"], 7: ["= answer 404"], 8: ["= answer 200"]}
        self.lines_report(lines, {**ends, 6: ["join B alice set 1", "= ok"]})

    def test_a_page_gets_lost_and_has_an_item_as_it_was(self):
        last = {
            12: ["post B #6", "accept #6 @1005 set 1", "settle B #6", "= link"],
            13: ["edit B #6 deleted", "= ok"],
            14: ["post B #6", "accept #6 @1006 deleted", "settle B #6", "= ok"],
            15: ["= refused client.2 NoItem #6"],
        }
        lines = BEGUN + ["put A " + LONGEST] * 5 + ["sync A", "signin B alice p1", "put B {}", "sync B drop-reply=2"]
        self.lines_report(lines + ["del B #6", "sync B", "edit B #6 {}"], last)


class Bounds(Replays):
    def test_at_most_150_items(self):
        script = text(TWO + ["put A {}"] * 151 + ["sync A", "sync B drop-reply=2", "edit B #151 {}", "edit B #150 {}", "sync B", "show"])
        report = model.report(script)
        first, second = report.index("156 settle A #150\n"), report.index("156 post A #151\n")
        self.assertLess(first, second)
        # The second page, of item 151 alone, was lost.
        self.assertEqual(of_line(158, report), ["= refused client.2 NoItem #151"])
        self.assertEqual(of_line(159, report), ["edit B #150 {}", "= ok"])
        self.reports(script, report)

    def test_at_most_4_194_304_bytes(self):
        script = text(BEGUN + ["put A " + LONGEST] * 5 + ["sync A"])
        report = model.report(script)
        self.assertLess(report.index("9 settle A #4\n"), report.index("9 post A #5\n"))
        self.reports(script, report)

    def test_the_last_byte_of_a_request_and_of_a_page(self):
        """Six notes of alice's have 4,194,304 bytes of strings: each 140 + 172 for two strings beside their ciphertexts, 192 for
        that of its key, and for that of its content four have 698,264 and two 698,176, of 523,695 and 523,631 bytes at most."""
        self.assertEqual(6 * (2 * (140 + 172) + 192) + 4 * 698264 + 2 * 698176, 4194304)
        for more, parted in ((0, False), (1, True)):
            contents = ['{"a":"%s"}' % ("x" * (size - 8)) for size in [523695] * 4 + [523631, 523631 + more]]
            lines = TWO + ["put A " + content for content in contents] + ["sync A drop-reply=2", "sync A", "sync B drop-reply=2", "sync B"]
            report = model.report(text(lines))
            self.assertEqual(of_line(11, report)[-1], "= link" if parted else "= ok")
            self.assertEqual(of_line(13, report)[-1], "= link" if parted else "= ok")
            self.reports(text(lines), report)

    def test_conflicts_of_at_most_4_194_304_bytes(self):
        """The sixth deletion isn't looked at before the next request."""
        labels = range(1, 7)
        lines = TWO + ["put A {}"] * 6 + ["sync A", "sync B"]
        lines += ["edit A #%d %s" % (label, LONGEST) for label in labels] + ["del B #%d" % label for label in labels]
        moves = [word + " B #%d" % label for word in ("post", "giveway") for label in labels]
        self.lines_report(lines + ["sync A", "sync B"], {26: moves + ["= ok"]})

    def test_the_longest_content(self):
        self.assertEqual(len(LONGEST), 700000)
        script = text(BEGUN + ["put A " + LONGEST, "put A " + LONGEST[:-2] + 'x"}', "put A []", "sync B"])
        report = REGISTERED + ["4 edit A #1 " + LONGEST, "4 = ok", "5 = refused client.4 TooLong 700001"]
        self.reports(script, text(report + ["6 = refused client.5 NotObject", "7 = refused client.1 NoAccount"]))

    def test_a_copy_that_is_longer_is_its_own_copy(self):
        lines = TWO + ["put A {}", "sync A", "sync B", 'edit A #1 {"n":1}', "edit B #1 " + LONGEST, "sync A", "sync B drop-reply=2"]
        lines += ["sync A", 'edit A #2 {"n":2}', "sync A", "sync B", "show"]
        copy = LONGEST[:-1] + ',"conflict_of":"#1"}'
        last = {
            11: ["post B #1", "fork B #1 #2", "post B #2", "accept #2 @1002 set 1", "= link"],
            15: ["fork B #2 #3", "post B #3", "accept #3 @1004 set 1", "settle B #3", "= ok"],
            16: ["account alice set 1", 'item #1 @1001 set 1 {"n":1}', 'item #2 @1003 set 1 {"n":2}', "item #3 @1004 set 1 " + copy]
            + ["device A alice sets 1", "device B alice sets 1", "= ok"],
        }
        self.lines_report(lines, last)


class Passwords(Replays):
    CHANGED = ["change alice set 2", "join A alice set 2", "rewrap #1 @1001 set 2", "retire A set 1", "= ok"]
    # What ends a show where two devices have the second set alone, and no drafts; and what it shows of one note besides.
    BOTH_SECOND = ["device A alice sets 2", "device B alice sets 2", "= ok"]
    ONE_SECOND = ["account alice set 2", "item #1 @1001 set 2 {}", *BOTH_SECOND]

    def test_one_device(self):
        lines = BEGUN + ["put A {}", "sync A", "passwd A p2", "late A 4", "show"]
        shown = ["account alice set 2", "item #1 @1001 set 2 {}", "device A alice sets 2", "= ok"]
        self.lines_report(lines, {6: self.CHANGED, 7: ["= answer 401"], 8: shown})

    def test_a_lost_change(self):
        lines = BEGUN + ["put A {}", "sync A", "passwd A p2 drop-request=2", "sync A"]
        self.lines_report(lines, {6: ["= link"], 7: self.CHANGED})

    def test_a_lost_change_that_comes_late(self):
        lines = BEGUN + ["put A {}", "sync A", "passwd A p2 drop-request=2", "late A 4", "sync A", "signin B alice p1", "signin B alice p2"]
        last = {7: ["change alice set 2", "= answer 200"], 8: self.CHANGED[1:]}
        self.lines_report(lines, last | {9: ["= server 401 bad-auth"], 10: ["join B alice set 2", "= ok"]})

    def test_more_than_one_request(self):
        lines = BEGUN + ["put A {}"] * 151 + ["sync A", "passwd A p2 drop-reply=2", "sync A drop-request=4", "show", "sync A"]
        lines += ["signin B alice p2", "sync B", "show"]
        rewraps = ["rewrap #%d @%d set 2" % (n, 1150 + n) for n in range(1, 152)]
        last = {156: ["change alice set 2", "= link"], 157: ["join A alice set 2", *rewraps[:150], "= link"]}
        report = of_line(158, model.report(text(lines)))
        self.assertEqual(report[151:], ["item #151 @1150 set 1 {}", "device A alice sets 1 2", "= ok"])
        items = ["item #%d @%d set 2 {}" % (n, 1150 + n) for n in range(1, 152)]
        last |= {159: [rewraps[150], "retire A set 1", "= ok"], 162: ["account alice set 2", *items, *self.BOTH_SECOND]}
        self.lines_report(lines, last)

    def test_two_devices_through_two_changes(self):
        lines = BEGUN + ['put A {"n":1}', "sync A", "signin B alice p1", "sync B", 'edit B #1 {"n":2}', "passwd A p2", 'put A {"n":5}', "sync A"]
        lines += ["passwd A p3 drop-reply=2", "signin B alice p3", "sync B", "show", "sync A", "sync B", "show"]
        items = ['item #1 @1001 set 2 {"n":1}', 'item #2 @1002 set 2 {"n":5}', 'item #3 @1003 set 3 {"n":2,"conflict_of":"#1"}']
        last = {
            9: self.CHANGED,
            11: ["post A #2", "accept #2 @1002 set 2", "settle A #2", "= ok"],
            12: ["change alice set 3", "= link"],
            13: ["join B alice set 3", "= ok"],
            14: ["post B #1", "fork B #1 #3", "retire B set 1", "post B #3", "accept #3 @1003 set 3", "settle B #3", "= ok"],
            15: ["account alice set 3", *items, "device A alice sets 2", "device B alice sets 3", "closed B #1 set 2", "closed B #2 set 2", "= ok"],
            16: ["join A alice set 3", "rewrap #1 @1004 set 3", "rewrap #2 @1005 set 3", "retire A set 2", "= ok"],
            17: ["= ok"],
            18: ["account alice set 3", 'item #1 @1004 set 3 {"n":1}', 'item #2 @1005 set 3 {"n":5}', 'item #3 @1003 set 3 {"n":2,"conflict_of":"#1"}']
            + ["device A alice sets 3", "device B alice sets 3", "= ok"],
        }
        self.lines_report(lines, last)

    def cut_off(self, *lines):
        """A change that these lines make in the end, on one device with one note; then another one signs in."""
        script = BEGUN + ["put A {}", "sync A", *lines, "signin B alice p1", "signin B alice p2", "sync B", "show"]
        count = len(script)
        last = {count - 3: ["= server 401 bad-auth"], count - 2: ["join B alice set 2", "= ok"], count - 1: ["= ok"], count: self.ONE_SECOND}
        report = model.report(text(script))
        ends = [of_line(number, report)[-1] for number in range(6, count - 3)]
        self.assertEqual(ends, ["= link" if " drop-" in line else "= ok" for line in lines])
        self.lines_report(script, last)

    def test_each_request_and_answer_is_lost(self):
        """Nothing is asked for yet where the sync before the change is cut off. In the end each note is sealed again once."""
        for what in ("request", "reply"):
            for number in (1, 2, 3):
                with self.subTest(what=what, number=number):
                    again = ["passwd A p2"] if number == 1 else []
                    self.cut_off("passwd A p2 drop-%s=%d" % (what, number), "sync A", *again)

    def test_each_request_and_answer_of_what_resolves_it_is_lost(self):
        for first in ("request", "reply"):
            for what in ("request", "reply"):
                for number in (1, 2, 3):
                    with self.subTest(first=first, what=what, number=number):
                        self.cut_off("passwd A p2 drop-%s=2" % first, "sync A drop-%s=%d" % (what, number), "sync A")

    def test_a_change_that_another_one_overtook(self):
        lines = TWO + ["put A {}", "sync A", "sync B", "passwd A p2 drop-request=2", "passwd B p3"]
        lines += ["sync A", "signin A alice p2", "signin A alice p3", "sync A", "show"]
        last = {
            8: ["= link"],
            9: ["change alice set 2", "join B alice set 2", "rewrap #1 @1001 set 2", "retire B set 1", "= ok"],
            10: ["= server 401 bad-auth"],
            11: ["= server 401 bad-auth"],
            12: ["join A alice set 2", "= ok"],
            13: ["retire A set 1", "= ok"],
            14: self.ONE_SECOND,
        }
        self.lines_report(lines, last)

    def test_a_draft_while_a_set_is_asked_for(self):
        lines = BEGUN + ["passwd A p2 drop-request=2", 'put A {"t":"x"}', "sync A", "signin B alice p2", "sync B", "show"]
        last = {4: ["= link"], 5: ['edit A #1 {"t":"x"}', "= ok"], 7: ["join B alice set 2", "= ok"], 8: ["= ok"]}
        self.lines_report(lines, last | {9: ["account alice set 2", 'item #1 @1000 set 2 {"t":"x"}', *self.BOTH_SECOND]})

    def test_a_device_that_signs_in_meanwhile(self):
        lines = BEGUN + ["put A {}", "sync A", "passwd A p2 drop-reply=2", "signin B alice wrong", "signin B alice p2"]
        lines += ["passwd B p3", "edit B #1 {}", "signin B alice wrong", "sync A", "sync B", "passwd B p3"]
        lines += ["sync A", "signin A alice p2", "signin A alice p3", "sync A", "show"]
        last = {
            7: ["= server 401 bad-auth"],
            8: ["join B alice set 2", "= ok"],
            9: ["= refused rekey.1 ChangeRunning #1"],
            10: ["= refused client.3 Closed set 1"],
            11: ["= refused client.11 WrongPassword"],
            12: self.CHANGED[1:],
            13: ["= ok"],
            14: ["change alice set 3", "join B alice set 3", "rewrap #1 @1002 set 3", "retire B set 2", "= ok"],
            15: ["= server 401 bad-auth"],
            16: ["= server 401 bad-auth"],
            17: ["join A alice set 3", "= ok"],
            18: ["retire A set 2", "= ok"],
            19: ["account alice set 3", "item #1 @1002 set 3 {}", "device A alice sets 3", "device B alice sets 3", "= ok"],
        }
        self.lines_report(lines, last)


class Random(Replays):
    SCRIPTS = 2000
    # Lines that the reports of all scripts have at least so often.
    WORDS = {"fork": 1000, "giveway": 300, "drop": 300, "settle": 10000, "accept": 10000}
    WORDS |= {"change": 2000, "rewrap": 5000, "retire": 2000, "unpost": 200, "closed": 10}
    LASTS = {"= link": 3000, "= answer 200": 5000, "= server 409 stamps-used": 50, "= server 401 bad-auth": 50, "= refused client.2": 500}

    @staticmethod
    def expected(script):
        try:
            return 0, model.report(script).encode(), b""
        except model.NotAllowed as refused:
            return 3, b"", b"sn: replay.2 NotAllowed %d\n" % refused.number

    def test_beside_the_model(self):
        draw = random.Random(20190520)
        scripts = [random_scripts.script(draw) for _ in range(self.SCRIPTS)]
        counts, refused = collections.Counter(), 0
        with concurrent.futures.ThreadPoolExecutor(os.cpu_count()) as lanes:
            for script, found in zip(scripts, lanes.map(replay, scripts)):
                wanted = self.expected(script)
                self.assertEqual((found[0], found[1].decode(), found[2]), (wanted[0], wanted[1].decode(), wanted[2]), script)
                refused += wanted[0] != 0
                for line in wanted[1].decode().splitlines():
                    _, _, rest = line.partition(" ")
                    counts[rest if rest.startswith("=") else rest.split(" ")[0]] += 1
        for word, least in self.WORDS.items():
            self.assertGreater(counts[word], least, word)
        for last, least in self.LASTS.items():
            self.assertGreater(sum(count for line, count in counts.items() if line.startswith(last)), least, last)
        self.assertGreater(refused, 20)


if __name__ == "__main__":
    unittest.main()

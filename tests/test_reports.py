"""What is read of each line of a script, by the report that it brings about, and what a report makes of uuids. The reports were worked
out by hand from docs/FORMATS.md; where a line may come, the model has the same one.
"""

import unittest

import drawn
import model
from test_replay import BEGUN, TWO, Replays, replay, text

NOTED = BEGUN + ['put A {"n":1}', "sync A"]
NOT_OBJECT = ["= refused client.5 NotObject"]
# Numbers past 64 bits: the first such one, one that is 1 modulo 2^64, and a long one.
BEYOND = ["18446744073709551616", "18446744073709551617", "1" + "0" * 90]
HEX = "0a" * 32


class Lines(Replays):
    def says(self, lines, wanted, by_model=True):
        """The report of the last line, whose text may have any characters but a line feed."""
        status, out, err = replay(text(lines))
        self.assertEqual((status, err), (0, b""), lines[-1][:300])
        front = "%d " % len(lines)
        found = [line.removeprefix(front) for line in out.decode().split("\n") if line.startswith(front)]
        self.assertEqual(found, wanted, lines[-1][:300])
        if by_model:
            self.assertEqual(out.decode(), model.report(text(lines)))

    def each_says(self, before, table):
        for line, wanted in table:
            with self.subTest(line=line[:100]):
                self.says(before + [line], wanted)

    def each_refused(self, before, lines):
        """Each of the lines is the first that is out of the grammar."""
        for line in lines:
            with self.subTest(line=line[:100]):
                self.refuses("".join(each + "\n" for each in before) + line, len(before) + 1)
                self.refuses("".join(each + "\n" for each in before) + line + "\nshow\n", len(before) + 1)


class Layout(Lines):
    """Line feeds, blanks and commands."""

    def test_lines_of_a_text(self):
        for script, events in (("", 0), ("show", 1), ("show\n", 1), ("show\nshow", 2), ("show\nshow\n", 2)):
            self.reports(script, text("%d = ok" % (place + 1) for place in range(events)))

    def test_lines_out_of_the_grammar(self):
        table = {
            1: ["\n", "\n\n", "\nshow", " show", "show ", "show x", " ", "Show", "shown", "show\r", "show\r\nshow", "frob A", "sync", "sync "],
            2: ["show\n\n", "show\n\nshow", "show\n\r", "cost 1\nsync\nsync A"],
            3: ["cost 1\nclock 1\nsync"],
        }
        table[1] += ["sync A ", "sync A B", "sync  A", "show drop-reply"]
        for number, scripts in table.items():
            for script in scripts:
                with self.subTest(script=script):
                    self.refuses(script, number)

    def test_each_command(self):
        """A script with each of them, and a report of every line."""
        lines = ["cost 1", "clock 2", "register A gen p", "signin B gen p", "put A {}", "edit A #1 [] ", "del A #1", "late B 1", "sync B", "passwd A p", "show"]
        report = ["3 register gen set 1", "3 join A gen set 1", "3 = ok", "4 join B gen set 1", "4 = ok", "5 edit A #1 {}", "5 = ok"]
        report += ["6 = refused client.5 NotObject", "7 drop A #1", "7 = ok", "8 = answer 200", "9 = ok"]
        report += ["10 change gen set 2", "10 join A gen set 2", "10 retire A set 1", "10 = ok"]
        report += ["11 account gen set 2", "11 device A gen sets 2", "11 device B gen sets 1", "11 = ok"]
        self.reports(text(lines), text(report))
        self.assertEqual(model.report(text(lines)), text(report))


class Settings(Lines):
    def test_out_of_the_grammar(self):
        costs = "0 1000001 4294967297 18446744073709551617 01 +1 -1 1e3".split() + ["", "1 ", " 1", "1 2"]
        clocks = "18446744073709551616 00 007 +1 5x".split() + [""]
        seeds = ["0A" * 32, HEX[1:], HEX + "0", HEX[1:] + "g", HEX + " "]
        lines = ["cost " + word for word in costs] + ["clock " + word for word in clocks] + ["seed " + word for word in seeds]
        self.each_refused([], lines + ["cost", "clock", "seed"])

    def test_a_seed_stands_on_the_first_line_alone(self):
        self.each_refused(["show"], ["seed " + HEX])
        self.each_refused(["seed " + HEX], ["seed " + "0b" * 32])
        self.reports("seed %s\ncost 5\nshow\n" % HEX, "3 = ok\n")

    def test_costs(self):
        for cost in ("1", "10", "1000000"):
            self.reports("cost %s\nshow\n" % cost, "2 = ok\n")

    def test_clocks(self):
        """The stamps that they give: at least 1, and none past the last."""
        for clock, stamp in (("0", 1), ("1", 1), ("5", 5), ("253402300799999999", 253402300799999999)):
            lines = ["cost 1", "clock " + clock, "register A alice p", "put A {}", "sync A"]
            self.says(lines, ["post A #1", "accept #1 @%d set 1" % stamp, "settle A #1", "= ok"])
        for clock in ("253402300800000000", "18446744073709551615"):
            lines = ["cost 1", "clock " + clock, "register A alice p", "put A {}", "sync A"]
            self.says(lines, ["post A #1", "= server 409 stamps-used"])

    def test_seeds(self):
        """What is put names the uuid that the seed gives it, so that it is printed as a label."""
        for seed in (bytes([10]) * 32, bytes.fromhex("00010203" + "f4" * 28), bytes(range(32))):
            lines = ["seed " + seed.hex(), "cost 1", "clock 1", "register A alice p", 'put A {"u":"%s"}' % drawn.line_uuid(seed, 5)]
            self.says(lines, ['edit A #1 {"u":"#1"}', "= ok"], by_model=False)


class Accounts(Lines):
    def test_names_identifiers_and_passwords(self):
        for word in ("register", "signin"):
            out = ["ABCDefgh9 alice p", " alice p", "A-1 alice p", "A_ alice p", "ä alice p", "A alice", "A", "A alice p ", "A  p", "A alice "]
            out += ["A %s p" % ("i" * 255), "A i " + "p" * 255, "A %si p" % ("ä" * 127), "A i " + "ä" * 128, "A alice p x", "A alice p q"]
            out += ["A alice p stop-server=1:old"]
            self.each_refused([], [word] + [word + " " + rest for rest in out])

    def test_accounts_begin(self):
        names = [("A", "alice", "p"), ("z", "alice", "p"), ("1", "#{}+", "ü"), ("ABCDefg8", "alice", "p"), ("A", "i" * 254, "p"), ("A", "ä" * 127, "p")]
        names += [("A", "i", "p" * 254), ("A", "i", "ä" * 127), ("A", "alice", "drop-reply")]
        for name, identifier, password in names:
            lines = ["cost 1", "register %s %s %s" % (name, identifier, password)]
            with self.subTest(lines[-1][:100]):
                self.says(lines, ["register %s set 1" % identifier, "join %s %s set 1" % (name, identifier), "= ok"])
                self.has_password(lines, identifier, password)

    def has_password(self, lines, identifier, password):
        """Just this password signs in."""
        self.says(lines + ["signin B2 %s %s" % (identifier, password)], ["join B2 %s set 1" % identifier, "= ok"])
        for wrong in (password + "x", "x" + password, password[:-1] + "x"):
            if len(wrong.encode()) <= 254:
                self.says(lines + ["signin B2 %s %s" % (identifier, wrong)], ["= server 401 bad-auth"])

    def test_losses(self):
        begun = ["register alice set 1", "= link"]
        registrations = [("drop-reply", begun), ("drop-request", ["= link"]), ("drop-request drop-reply=3", ["= link"])]
        registrations += [("drop-reply=2", ["register alice set 1", "join A alice set 1", "= ok"])]
        self.each_says(["cost 1"], [("register A alice p " + fates, wanted) for fates, wanted in registrations])
        self.each_says(BEGUN, [("signin B alice p1 drop-request=2", ["= link"]), ("signin B alice p1 drop-request=3", ["join B alice set 1", "= ok"])])


class Texts(Lines):
    """What is the text of a put or an edit, and what is none of it."""

    # Each is an object text.
    OBJECTS = ["{}", " {}", "{} ", '{"a":  1}', "{}\r", '{"t":"grün süß"}', '{"t":"drop-reply"}']
    # A word that has no fate's form is of the text.
    NO_FATES = ["drop-reply=01", "drop-reply=" + "0" * 64, "drop-reply=", "drop-reply=+1", "drop-replys", "Drop-reply", " drop-reply", "#1", "drop"]
    NO_FATES += ["stop-server=12:x0F", "stop-server", "stop-device=3", "stop-device=:old", "stop-device=3:older", "stop-device=3:x0"]
    NO_FATES += ["stop-device=3:old:old", "stop-server=03:old", "drop-reques", "drop-request:1", "drop-request=1=1"]
    FATES = ["drop-reply", "drop-request", "drop-reply=3", "drop-reply=1" + "0" * 70, "drop-request=0", "drop-reply drop-request=2"]
    STOPS = ["stop-device=3:old", "stop-server=0:new", "stop-server=12:x0f"]

    def test_texts(self):
        for front, label in (("put A ", 2), ("edit A #1 ", 1)):
            wanted = [(object_text, ["edit A #%d %s" % (label, object_text), "= ok"]) for object_text in self.OBJECTS]
            wanted += [(fate + " " + object_text, said) for fate in self.FATES for object_text, said in wanted[:2]]
            wanted += [(other, NOT_OBJECT) for other in ("", "x", "x y", "  ", "{} drop-reply", "drop-reply ", "#2")]
            wanted += [(word + " {}", NOT_OBJECT) for word in self.NO_FATES]
            wanted += [("drop-reply drop-request=2 {} drop-reply", NOT_OBJECT), ("drop-reply=01 drop-reply", NOT_OBJECT)]
            self.each_says(NOTED, [(front + rest, said) for rest, said in wanted])

    def test_out_of_the_grammar(self):
        for front in ("put A", "edit A #1"):
            words = [*self.FATES, *self.STOPS, *[stop + " {}" for stop in self.STOPS], "drop-reply drop-reply", "drop-reply stop-device=3:old {}"]
            self.each_refused(BEGUN, [front] + [front + " " + word for word in words])
        self.each_refused(BEGUN, ["put", "put ", "put ABCDefgh9 {}", "put  {} y"])

    def test_a_text_of_no_bytes_and_a_line_behind_it(self):
        self.reports("put A \nshow", text(["1 = refused client.1 NoAccount", "2 device A none", "2 = ok"]))


class Items(Lines):
    def test_labels_out_of_the_grammar(self):
        words = ["", "#01 {}", "#+1 {}", "# {}", "1 {}", "##1 {}", " #1 {}", "#1x {}", "drop-reply #1 {}"]
        edits = ["edit A " + word for word in words] + ["edit", "edit A", "edit A- #1 {}"]
        self.each_refused(BEGUN, edits + ["del", "del A", "del A #", "del A 1", "del A #3 ", "del A #3 x", "del A #3 stop-server=1:old"])

    def test_labels_that_are_not_there(self):
        for label in ["0", "3", "18446744073709551615", *BEYOND]:
            for line in ("edit A #%s {}" % label, "del A #" + label):
                with self.subTest(line[:100]):
                    self.allows_not(text(NOTED + ['put A {"n":2}', line]), 7)
        for line in ("edit A #1 x", "del A #1"):
            self.allows_not(line, 1)

    def test_labels(self):
        lines = BEGUN + ["put A {}"] * 12
        self.says(lines + ['edit A #12 {"a":  1} '], ['edit A #12 {"a":  1} ', "= ok"])
        self.says(lines + ["edit A #2 {}"], ["edit A #2 {}", "= ok"])
        self.says(lines + ["del A #3 drop-reply drop-request=2"], ["drop A #3", "= ok"])
        self.says(NOTED + ["del A #1"], ["edit A #1 deleted", "= ok"])

    def test_late_requests(self):
        self.each_refused(BEGUN, ["late", "late A", "late A 01", "late A #1", "late A 1 ", "late A 1 drop-reply", "late A- 1", "late 1", "late A +1"])
        self.says(NOTED + ["late A 2"], ["= answer 200"])
        self.says(NOTED + ["late A 1"], ["= answer 409"])
        for number in ["0", "3", *BEYOND]:
            self.allows_not(text(NOTED + ["late A " + number]), 6)


class Losses(Lines):
    """Which request or answer is lost."""

    POSTED = ["post A #2", "accept #2 @1001 set 1", "settle A #2", "= ok"]

    def test_out_of_the_grammar(self):
        words = ["drop-request=01", "drop-request=", "drop-request=1=1", "drop-request:1", "drop-reply ", " drop-reply", "drop-reply B", "drop", "drop-reques"]
        words += ["stop-server=1:new", "drop-reply stop-device=1:old"]
        self.each_refused(BEGUN, ["sync A " + word for word in words] + ["sync drop-reply"])
        passwds = ["passwd", "passwd A", "passwd A ", "passwd A- p", "passwd A p x", "passwd A " + "p" * 255, "passwd A p stop-server=1:old"]
        self.each_refused(BEGUN, passwds)

    def test_of_a_sync(self):
        lost, unheard = ["post A #2", "= link"], self.POSTED[:2] + ["= link"]
        table = [("", self.POSTED), (" drop-request", lost), (" drop-request=1", lost), (" drop-reply", unheard), (" drop-reply=1", unheard)]
        table += [(" drop-reply drop-reply", unheard), (" drop-reply=2 drop-request=10 drop-reply", unheard), (" drop-reply drop-request", lost)]
        table += [(" drop-request=" + number, self.POSTED) for number in ["0", "2", "18446744073709551615", *BEYOND]]
        table += [(" drop-reply=" + number, self.POSTED) for number in ["0", "2", *BEYOND]]
        self.each_says(NOTED + ["put A {}"], [("sync A" + fates, wanted) for fates, wanted in table])

    def test_of_a_change_of_password(self):
        """The first request is the sync's, the second the change, the third sends what is sealed again."""
        changed = ["change alice set 2", "join A alice set 2", "rewrap #1 @1001 set 2", "retire A set 1", "= ok"]
        link = ["= link"]
        table = [("", changed), (" drop-request", link), (" drop-reply", link), (" drop-request=2", link), (" drop-reply=2", changed[:1] + link)]
        table += [(" drop-request=3", changed[:2] + link), (" drop-reply=3", changed[:3] + link), (" drop-request=4", changed)]
        table += [(" drop-reply=3 drop-request=2", link), (" drop-request=3 drop-reply=2", changed[:1] + link)]
        self.each_says(NOTED, [("passwd A p2" + fates, wanted) for fates, wanted in table])

    def test_a_password_that_looks_like_a_loss(self):
        lines = NOTED + ["passwd A drop-reply=2 drop-request=3"]
        self.says(lines, ["change alice set 2", "join A alice set 2", "= link"])
        self.says(lines + ["signin B alice drop-reply=2"], ["join B alice set 2", "= ok"])


class Labels(Lines):
    """An item's uuid is printed as its label, where a text has it as it is spelled."""

    SEED = bytes([7]) * 32
    BEFORE = ["seed " + SEED.hex(), "cost 1", "clock 1000", "register A alice p"]
    # Those of the items that lines 5 and 6 put, the labels #1 and #2.
    FIRST, SECOND = drawn.line_uuid(SEED, 5), drawn.line_uuid(SEED, 6)
    OTHER = "00000000-0000-4000-8000-000000000002"

    def test_the_stream(self):
        """RFC 8439, A.1, test vector 1."""
        wanted = "76b8e0ada0f13d90405d6ae55386bd28bdd219b8a08ded1aa836efcc8b770dc7da41597c5157488d7724e03fb8d84a376a43b8f41518a11cc387b669b2ee6586"
        self.assertEqual(drawn.chacha20(bytes(32)).hex(), wanted)

    def test_texts(self):
        first, second = self.FIRST, self.SECOND
        self.assertNotEqual(first, first.upper())
        table = [
            ("", ""),
            (second + '","b":"' + second, '#2","b":"#2'),
            (second + first, "#2#1"),
            ("0" + first + "0", "0#10"),
            ("é" + first + "€", "é#1€"),
            (first[:-1] + first, first[:-1] + "#1"),
            *[(same, same) for same in (first.upper(), first[:-1], first[1:], first.replace("-", ""), self.OTHER)],
        ]
        for given, printed in table:
            lines = self.BEFORE + ["put A {}", "put A {}", 'edit A #1 {"a":"%s"}' % given]
            self.says(lines, ['edit A #1 {"a":"%s"}' % printed, "= ok"], by_model=False)

    def test_a_text_before_the_item_that_it_names(self):
        """An item's uuid is no label before a line has put it; an edit, and an item of `show`, has those of all lines so far."""
        linked = '{"to":"%s"}' % self.SECOND
        lines = self.BEFORE + ["put A " + linked, 'put A {"to":"%s","from":"%s"}' % (self.SECOND, self.FIRST), "sync A", "edit A #2 " + linked, "show"]
        lines += ["del A #1", "sync A", "show"]
        report = ["4 register alice set 1", "4 join A alice set 1", "4 = ok", "5 edit A #1 " + linked, "5 = ok", '6 edit A #2 {"to":"#2","from":"#1"}', "6 = ok"]
        report += ["7 post A #1", "7 post A #2", "7 accept #1 @1000 set 1", "7 accept #2 @1001 set 1", "7 settle A #1", "7 settle A #2", "7 = ok"]
        report += ['8 edit A #2 {"to":"#2"}', "8 = ok", "9 account alice set 1", '9 item #1 @1000 set 1 {"to":"#2"}']
        report += ['9 item #2 @1001 set 1 {"to":"#2","from":"#1"}', "9 device A alice sets 1", '9 draft A #2 {"to":"#2"}', "9 = ok"]
        report += ["10 edit A #1 deleted", "10 = ok", "11 post A #1", "11 post A #2", "11 accept #1 @1002 deleted", "11 accept #2 @1003 set 1"]
        report += ["11 settle A #1", "11 settle A #2", "11 = ok", "12 account alice set 1", "12 item #1 @1002 deleted"]
        report += ['12 item #2 @1003 set 1 {"to":"#2"}', "12 device A alice sets 1", "12 = ok"]
        self.reports(text(lines), text(report))


class States(Lines):
    """What a version and a draft are behind the moves that made them."""

    def test_what_was_sent_is_accepted_behind_an_edit(self):
        """The version is what was sent, once; the draft is the edit, and stands on the version once its device was told."""
        last = {
            7: ["accept #1 @1000 set 1", "= answer 200"],
            8: ["account alice set 1", "item #1 @1000 set 1 {}", "device A alice sets 1", 'draft A #1 {"n":2}', "= ok"],
            9: ["= answer 200"],
            10: ["settle A #1 @1000", "post A #1", "accept #1 @1001 set 1", "settle A #1", "= ok"],
        }
        lines = BEGUN + ["put A {}", "sync A drop-request", 'edit A #1 {"n":2}', "late A 2", "show", "late A 2", "sync A"]
        self.lines_report(lines, last)

    def test_a_fork_leaves_a_draft_of_a_new_item(self):
        fork = ["post B #1", "fork B #1 #2", "post B #2", "= link"]
        copy = '{"n":3,"conflict_of":"#1"}'
        shown = ["account alice set 1", 'item #1 @1001 set 1 {"n":2}', "device A alice sets 1", "device B alice sets 1", "draft B #2 " + copy, "= ok"]
        lines = TWO + ["put A {}", "sync A", "sync B", 'edit A #1 {"n":2}', 'edit B #1 {"n":3}', "sync A"]
        last = {11: fork, 12: shown, 13: ["accept #2 @1002 set 1", "settle B #2", "= ok"]}
        self.lines_report(lines + ["sync B drop-request=2", "show", "sync B"], last)

    def test_a_draft_that_is_a_deletion(self):
        shown = ["account alice set 1", 'item #1 @1000 set 1 {"n":1}', "device A alice sets 1", "draft A #1 deleted", "= ok"]
        self.says(NOTED + ["del A #1", "show"], shown)


if __name__ == "__main__":
    unittest.main()

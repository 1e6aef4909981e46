"""The commands as a user runs them: sizes, refusals, statuses and the line of each."""

import json
import re
import unittest

import program

LARGEST = 16777216
USAGE = 2, b"", b"sn: usage\n"

# Strings of an independent implementation, of no text and of a whole block; and one in form, of zeros alone.
PARAMS = b"eyJpZGVudGlmaWVyIjoiYWxpY2UiLCJwd19jb3N0IjoxLCJwd19ub25jZSI6IjZlIiwidmVyc2lvbiI6IjAwMyJ9"
FRONT = b"%s:00000000-0000-4000-8000-000000000001:76b8e0ada0f13d90405d6ae55386bd28:"
EMPTY = FRONT % b"003:e02d68811276dd52ae7a25d507ed386516a18776e1e500cff15b5af94ef16f1a" + b"WbUbyVznKFwK2Nf+5HN/fw==:" + PARAMS
BLOCK = FRONT % b"003:b575ce3c2695f7385e3d9b9fd8888357bc2fddb015d6fa35e3086f83c423e455" + b"//0LNp/oXedvv270MZbI7YEYIqJpGRG8VSSOyP2NKA0=:" + PARAMS
ZEROS = b":".join((b"003", b"0" * 64, program.UUID.encode(), b"0" * 32, b"AAAAAAAAAAAAAAAAAAAAAA==", PARAMS))


class Seal(unittest.TestCase):
    def test_the_empty_text(self):
        status, out, err = program.run(program.seal_words())
        self.assertEqual((status, len(out), err), (0, 253, b""))
        self.assertEqual(len(out.split(b":")[4]), 24)

    def test_a_full_block_gets_a_block_of_padding(self):
        status, out, _ = program.run(program.seal_words(), b"0123456789abcdef")
        self.assertEqual((status, len(out.split(b":")[4])), (0, 44))

    def test_the_largest_input(self):
        status, out, err = program.run(program.seal_words(), b"a" * LARGEST)
        self.assertEqual((status, err), (0, b""))
        self.assertEqual(len(out.split(b":")[4]), (LARGEST + 16 + 2) // 3 * 4)
        peak = program.peak_kilobytes()
        self.assertLess(peak, 8 * LARGEST // 1024, "peak memory in kilobytes")

    def test_one_byte_more(self):
        given = b"a" * (LARGEST + 1)
        self.assertEqual(program.run(program.seal_words(), given), (3, b"", b"sn: cli.1 InputLong\n"))

    def test_input_that_is_not_utf8(self):
        for given, place in ((b"\xff", 0), (b"ab\xc3", 2), ("é".encode() + b"\xed\xa0\x80", 2)):
            line = b"sn: cli.2 InputUtf8 %d\n" % place
            self.assertEqual(program.run(program.seal_words(), given), (3, b"", line))
            self.assertEqual(program.run(program.open_words(), given), (3, b"", line))

    def test_the_cost_may_be_left_out(self):
        status, out, _ = program.run(program.seal_words(cost=None))
        self.assertEqual(status, 0)
        import base64

        self.assertIn(b'"pw_cost":110000', base64.b64decode(out.split(b":")[5]))


class Usage(unittest.TestCase):
    def refused(self, words):
        self.assertEqual(program.run(words), USAGE, words)

    def test_faulty_command_lines(self):
        seal, opened = program.seal_words(), program.open_words()
        self.refused([])
        self.refused(["seal"])
        self.refused(["frob"])
        self.refused(["Seal"] + seal[1:])
        self.refused(seal[:-1])
        self.refused(seal + ["--nonce"])
        self.refused(seal + ["--nonce", "6e"])
        self.refused(opened + opened[1:3])
        self.refused(opened + ["x"])
        self.refused(opened[:1] + opened[3:])
        self.refused(["--uuid"])
        self.refused(["help"])
        self.refused(["show", "--uuid", program.UUID])
        self.refused(["replay", "--cost", "1"])
        for cut in (["--uui=" + program.UUID], ["--uui", program.UUID]):
            self.refused(["open", *cut] + opened[3:])

    def test_values_out_of_their_bounds(self):
        words = program.seal_words
        for cost in ("0", "01", "+1", "-1", "1.0", "1e3", "", " 1", "4294967296", "99999999999999999999"):
            self.refused(words(cost=cost))
        for uuid in ("", program.UUID[:-1], program.UUID.replace("-", ""), program.UUID[:-1] + "A", program.UUID + "0"):
            self.refused(words(uuid=uuid))
            self.refused(program.open_words(uuid=uuid))
        self.refused(words(key=program.KEY[:63]))
        self.refused(words(key=program.KEY + b"\x00"))
        self.refused(program.open_words(key=program.KEY[:63]))
        upper = program.open_words()
        upper[4] = upper[4].upper()
        self.refused(upper)
        self.refused(words(identifier=""))
        self.refused(words(identifier="a" * 255))
        self.refused(words(identifier="é" * 128))
        self.refused(words(nonce=""))
        self.refused(words(nonce="n" * 257))

    def test_options_in_another_order(self):
        key, uuid = program.KEY.hex(), program.UUID
        seal = ["seal", "--nonce=6e", "--key", key, "--cost", "1", "--identifier=alice", "--uuid", uuid]
        sealed = program.run(seal, b"0123456789abcdef")[1]
        self.assertTrue(sealed.endswith(b":%s\n" % PARAMS))
        self.assertEqual(program.run(["open", "--key=" + key, "--uuid", uuid], sealed), (0, b"0123456789abcdef", b""))

    def test_values_at_their_bounds(self):
        for words in (
            program.seal_words(cost="4294967295"),
            program.seal_words(identifier="é" * 127),
            program.seal_words(nonce="n" * 256),
        ):
            self.assertEqual(program.run(words)[0], 0)


class Open(unittest.TestCase):
    def test_what_was_sealed(self):
        for plain in (b"", b"x", b"0123456789abcdef", "ünïcödé\n".encode(), b"\n"):
            out = program.run(program.seal_words(), plain)[1]
            self.assertEqual(program.run(program.open_words(), out), (0, plain, b""))

    def test_strings_of_another_implementation(self):
        for given, plain in ((EMPTY, b""), (BLOCK, b"0123456789abcdef"), (BLOCK + b"\n", b"0123456789abcdef")):
            self.assertEqual(program.run(program.open_words(), given), (0, plain, b""))

    def test_what_opens_to_nothing(self):
        other = program.UUID[:-1] + "2"
        for given, uuid, line in (
            (b"x", program.UUID, "string.1 Parts 1"),
            (b"004" + BLOCK[3:], program.UUID, "string.2 Version 0"),
            (BLOCK + b"\n\n", program.UUID, "string.7 Params 184"),
            (BLOCK, other, "items.8 OtherUuid " + program.UUID),
        ):
            self.assertEqual(program.run(program.open_words(uuid), given), (3, b"", b"sn: %s\n" % line.encode()))


class Show(unittest.TestCase):
    def test_a_sealed_string(self):
        identifier, nonce = 'a"\\ü', "6e"
        text = program.run(program.seal_words(identifier=identifier, cost="7", nonce=nonce), b"x")[1][:-1]
        parts = text.decode().split(":")
        lines = [
            "version 003",
            "hash " + parts[1],
            "uuid " + parts[2],
            "iv " + parts[3],
            "ciphertext 16",
            "identifier " + json.dumps(identifier, ensure_ascii=False),
            "pw_cost 7",
            "pw_nonce " + json.dumps(nonce),
            "salt-text " + json.dumps(identifier + ":SF:003:7:6e", ensure_ascii=False),
        ]
        self.assertEqual(program.run(["show"], text), (0, ("\n".join(lines) + "\n").encode(), b""))

    def test_zeros(self):
        lines = ["version 003", "hash " + "0" * 64, "uuid " + program.UUID, "iv " + "0" * 32, "ciphertext 16"]
        lines += ['identifier "alice"', "pw_cost 1", 'pw_nonce "6e"', 'salt-text "alice:SF:003:1:6e"']
        self.assertEqual(program.run(["show"], ZEROS), (0, ("\n".join(lines) + "\n").encode(), b""))

    def test_what_is_no_string(self):
        """A line feed counts."""
        for given, line in (
            (b"", b"string.1 Parts 1"),
            (ZEROS + b"\n", b"string.7 Params 164"),
            (ZEROS.replace(b"003:0", b"003:A"), b"string.3 Hash 4"),
        ):
            self.assertEqual(program.run(["show"], given), (3, b"", b"sn: %s\n" % line))


class Help(unittest.TestCase):
    OPTIONS = {
        "seal": "uuid key identifier cost nonce",
        "open": "uuid key",
        "show": "",
        "replay": "",
        "serve": "store port requests",
        "register": "store server identifier cost",
        "signin": "store server identifier",
        "put": "store title",
        "edit": "store uuid",
        "del": "store uuid",
        "list": "store uuid",
        "sync": "store server",
        "passwd": "store server cost",
    }

    def answer(self, words):
        status, out, err = program.run(words, b"not read")
        self.assertEqual((status, err), (0, b""), words)
        return out.decode()

    def test_the_version(self):
        self.assertEqual(self.answer(["--version"]), "sn 0.1.0\n")

    def test_each_command_is_named(self):
        for words in (["--help"], ["-h"]):
            text = self.answer(words)
            for word in (*self.OPTIONS, "--help", "--version"):
                self.assertIn(word, text)

    def test_the_usage_names_the_program(self):
        self.assertIn("Usage: sn <COMMAND>", self.answer(["--help"]))
        for command in self.OPTIONS:
            self.assertIn("Usage: sn %s" % command, self.answer([command, "--help"]))

    def test_each_option_is_told(self):
        for command, options in self.OPTIONS.items():
            lines = re.findall(r"^ +(?:-\w, )?--(\w+)", self.answer([command, "--help"]), re.M)
            self.assertEqual(lines, [*options.split(), "help"])

    def test_none_asks_for_a_password(self):
        for command in ["", *self.OPTIONS]:
            self.assertNotIn("--password", self.answer([command, "--help"] if command else ["--help"]))


if __name__ == "__main__":
    unittest.main()

"""What the model's ends and its report share: contents, what is sealed of them, labels, and the report's lines."""

import base64
import json
import math
import re

LONGEST_TEXT = 700000
MOST_LEVELS = 127
BLANKS = " \t\n\r"


def finite(digits):
    if digits in ("NaN", "Infinity", "-Infinity") or math.isinf(float(digits)):
        raise ValueError(digits)


def levels(value):
    """How deep lists and objects stand in one another."""
    inner = value.values() if isinstance(value, dict) else value if isinstance(value, list) else None
    return 0 if inner is None else 1 + max(map(levels, inner), default=0)


def is_object(text):
    """A JSON object of at most 127 levels, without a number that no double has and without half a surrogate pair."""
    try:
        read = json.loads(text, parse_float=finite, parse_int=finite, parse_constant=finite)
        json.dumps(read, ensure_ascii=False).encode()
    except ValueError:
        return False
    return isinstance(read, dict) and levels(read) <= MOST_LEVELS


def copy_of(text, uuid):
    """The text of a draft that goes on beside the item of this uuid."""
    if len(text.encode()) > LONGEST_TEXT:
        return text
    front = text.rstrip(BLANKS)[:-1]
    comma = "" if front.rstrip(BLANKS).endswith("{") else ","
    return '%s%s"conflict_of":"%s"}' % (front, comma, uuid)


class KeySet:
    """A key set of an account, with the nonce that was drawn for it. No two passwords have the same keys here. The server numbers the
    sets of an account from 1 as it takes them."""

    def __init__(self, identifier, password, cost, nonce=None):
        self.identifier, self.password, self.cost = identifier, password, cost
        self.nonce, self.number = nonce or object(), None
        params = {"identifier": identifier, "pw_cost": cost, "pw_nonce": "0" * 64, "version": "003"}
        spelled = json.dumps(params, separators=(",", ":"), ensure_ascii=False).encode()
        self.params_size = len(base64.b64encode(spelled))

    def derived(self, password):
        """The keys of a password under these parameters."""
        return self if password == self.password else KeySet(self.identifier, password, self.cost, self.nonce)

    def string_size(self, plain):
        """Bytes of the string that seals so many: version, hash, uuid, vector, ciphertext, params, and five colons."""
        padded = (plain // 16 + 1) * 16
        return 3 + 64 + 36 + 32 + 4 * ((padded + 2) // 3) + self.params_size + 5


class Sealed:
    """A content that was sealed under a key set. Each sealing has strings of its own, so one is equal to itself alone; `size` is their
    bytes."""

    def __init__(self, text, keys):
        self.text, self.keys = text, keys
        self.size = keys.string_size(len(text.encode())) + keys.string_size(128)


class Deletion:
    text, size, keys = None, 0, None


DELETED = Deletion()


class Report:
    """The lines of a report, and the uuids behind its labels. A uuid here is a text of 36 characters that no script has."""

    UUID = re.compile(r"uuid-[0-9]{31}")

    def __init__(self):
        self.lines, self.number = [], 0
        self.uuids = []

    def say(self, text):
        self.lines.append("%d %s" % (self.number, text))

    def fresh(self):
        """A uuid that wasn't there before, under the next label."""
        self.uuids.append("uuid-%031d" % len(self.uuids))
        return self.uuids[-1]

    def labelled(self, number):
        """The uuid with this label, or None."""
        return self.uuids[number - 1] if 1 <= number <= len(self.uuids) else None

    @staticmethod
    def place(uuid):
        """By which items are ordered: the number of their label."""
        return int(uuid.removeprefix("uuid-")) + 1

    def label(self, uuid):
        return "#%d" % self.place(uuid)

    def shown(self, body):
        """A body as the report has it: its text with labels for uuids."""
        if body is DELETED:
            return "deleted"
        return self.UUID.sub(lambda found: self.label(found.group()), body.text)

    def text(self):
        return "".join(line + "\n" for line in self.lines)

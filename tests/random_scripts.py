"""Random scripts of several devices, in which conflicts, losses, repeats and changes of password are common."""

import model

LAST_MOMENT = 253402300799999999
CONTENTS = ['{"t":"a"}', '{"t":"b"}', '{"t":"c"}', "{}", '{ "t": "é ü" } ', '{"a":{"b":[1,2]}}', '{"a":1,"a":2}', *['{"n":%d}'] * 4]
NO_CONTENTS = ["", "[]", "{} x", "null", "{", '"t"', "drop-request=01 {}", '{"a":1e999}']
FATES = ["drop-request", "drop-request=2", "drop-reply", "drop-reply", "drop-reply=2", "drop-reply=0 drop-reply=18446744073709551616"]
FATES += ["drop-reply=2 drop-request=3", "drop-reply drop-request", "drop-request=2 drop-request drop-reply=2"]
PASSWORDS = {"alice": "p1", "bob": "ü" * 60, "nobody": "p"}
CHANGE_FATES = ["drop-request=2", "drop-reply=2", "drop-reply=2", "drop-request=3", "drop-reply=3", "drop-reply=4", "drop-request=4"]


class Writer:
    """Writes a script line by line, and carries it out by the model meanwhile, so that it knows what there is."""

    def __init__(self, draw):
        self.draw, self.lines = draw, []
        self.replay = model.Replay()
        self.account = {}
        # How often a line changes a password: in a third of the scripts never.
        self.changes = draw.choice([0, 0.05, 0.1])

    def add(self, *words):
        """False where the line isn't allowed; then the script needs no more of them."""
        self.lines.append(" ".join(words))
        try:
            self.replay.line(len(self.lines), self.lines[-1])
        except model.NotAllowed:
            return False
        return True

    def chance(self, of):
        return self.draw.random() < of

    def fates(self, of):
        return [self.draw.choice(FATES)] if self.chance(of) else []

    def content(self):
        if self.chance(0.03):
            return self.draw.choice(NO_CONTENTS)
        content = self.draw.choice(CONTENTS)
        return content % self.draw.randrange(100) if "%" in content else content

    def rows(self, name):
        device = self.replay.devices.get(name)
        return device.rows if device else []

    def labels(self, name):
        return [self.replay.report.place(row.uuid) for row in self.rows(name)]

    def label(self, name):
        """Mostly one of the device's first items, which others edit too, else any, and seldom one that isn't there."""
        labels = self.labels(name)
        if self.chance(0.6):
            labels = labels[:2]
        if not labels or self.chance(0.05):
            labels = range(1, len(self.replay.report.uuids) + 1)
        if not labels or self.chance(0.0005):
            return "#%d" % self.draw.choice([0, 99, 1 << 64])
        return "#%d" % self.draw.choice(labels)

    def begin(self):
        draw = self.draw
        if self.chance(0.7):
            self.add("seed %064x" % draw.getrandbits(256))
        self.add("cost %d" % draw.choice([1, 1, 2, 10]))
        if self.chance(0.8):
            self.add("clock %d" % draw.choice([*[1000] * 12, *[draw.randrange(10**6)] * 7, LAST_MOMENT - 5]))
        for name in draw.sample(["A", "B", "c3", "Device08"], draw.choice([1, 2, 2, 2, 2, 3, 3, 3])):
            identifier = "bob" if self.account and self.chance(0.2) else "alice"
            word = "signin" if identifier in self.account.values() else "register"
            self.account[name] = identifier
            if not self.chance(0.05):
                self.add(word, name, identifier, self.password(identifier), *self.fates(0.1))
        if self.chance(0.015):
            # More than a page and a request.
            for number in range(draw.randrange(145, 165)):
                self.add("put", name, '{"n":%d}' % number)

    def enter(self, name):
        word = self.draw.choice(["register", "signin", "signin", "signin"])
        identifier = self.account[name] if self.chance(0.8) else self.draw.choice(list(PASSWORDS))
        password = self.password(identifier) if self.chance(0.8) else self.draw.choice(["wrong", PASSWORDS[identifier]])
        return self.add(word, name, identifier, password, *self.fates(0.2))

    def password(self, identifier):
        """The one that the account has now, or will begin with."""
        accounts = self.replay.server.accounts
        return accounts[identifier][-1].password if identifier in accounts else PASSWORDS[identifier]

    def change(self, name):
        """A change of password, of which something is lost every other time; often the device, or another, goes on with it."""
        fates = [self.draw.choice(CHANGE_FATES)] if self.chance(0.5) else []
        if not self.add("passwd", name, self.draw.choice(["p2", "p3", "p4", self.password(self.account[name])]), *fates):
            return False
        return self.chance(0.5) or self.add("sync", name, *([self.draw.choice(CHANGE_FATES)] if self.chance(0.3) else []))

    def edit(self, name):
        if not self.rows(name) or self.chance(0.3 / len(self.rows(name))):
            return self.add("put", name, *self.fates(0.05), self.content())
        return self.write(name, self.label(name), 0.15)

    def write(self, name, label, deletes):
        if self.chance(deletes):
            return self.add("del", name, label, *self.fates(0.05))
        return self.add("edit", name, label, *self.fates(0.05), self.content())

    def clash(self, one, other):
        """Two devices write an item that both have."""
        both = [label for label in self.labels(one) if label in self.labels(other)]
        if not both:
            return self.edit(one)
        label = "#%d" % self.draw.choice(both)
        return self.write(one, label, 0.3) and self.write(other, label, 0.3)

    def late(self, name):
        device = self.replay.devices.get(name)
        count = len(device.made) if device else 0
        if self.chance(0.01):
            return self.add("late", name, str(self.draw.choice([0, count + 1, 1 << 64])))
        return count == 0 or self.add("late", name, str(self.draw.randint(max(1, count - self.draw.choice([0, 1, 5, 50])), count)))

    def event(self, name, other):
        device = self.replay.devices.get(name)
        if (device is None or device.keys is None) and self.chance(0.5):
            return self.enter(name)
        if self.chance(self.changes):
            return self.change(name)
        if device is not None and device.keys not in (None, *self.replay.server.accounts.get(self.account[name], [None])[-1:]) and self.chance(0.5):
            # Another device has changed the password.
            return self.add("signin", name, self.account[name], self.password(self.account[name]), *self.fates(0.2))
        kind = self.draw.random()
        if kind < 0.3:
            return self.edit(name)
        if kind < 0.45 and other != name:
            return self.clash(name, other)
        if kind < 0.75:
            return self.add("sync", name, *self.fates(0.3))
        if kind < 0.88:
            return self.late(name)
        if kind < 0.95:
            return self.add("show")
        if kind < 0.98:
            return self.enter(name)
        return self.add("clock %d" % self.draw.choice([0, 5, 1000, self.draw.randrange(10**6)]))


def script(draw):
    """The text of a script."""
    writer = Writer(draw)
    writer.begin()
    names = list(writer.account)
    for _ in range(draw.choice([10, 20, 40, 40, 40, 60])):
        if not writer.event(draw.choice(names), draw.choice(names)):
            return "\n".join([*writer.lines, "show"])
    for name in names + names:
        if writer.chance(0.3):
            writer.add("signin", name, writer.account[name], writer.password(writer.account[name]))
        writer.add("sync", name)
    writer.add("show")
    return "".join(line + "\n" for line in writer.lines)

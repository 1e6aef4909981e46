"""What the report of a script is, by the rules of both ends in plain values: no keys, no disks, no strings but their lengths.

Here are a script's lines, and what is lost between the ends; `model_server.py` and `model_device.py` have the ends.
"""

import re

from model_device import Device, Ended
from model_items import DELETED, Report
from model_server import Refusal, Server

FATE = re.compile(r"drop-(request|reply)(?:=(0|[1-9][0-9]*))?")


class NotAllowed(Exception):
    """The first line that names an item without a label, or a request that was never made."""

    def __init__(self, number):
        super().__init__(number)
        self.number = number


def fates_and_text(words):
    """The requests of the line that are lost, those of which the answer is lost, and the rest of the words as a text."""
    lost = {"request": set(), "reply": set()}
    for place, word in enumerate(words):
        found = FATE.fullmatch(word)
        if found is None:
            return lost, " ".join(words[place:])
        lost[found[1]].add(int(found[2] or 1))
    return lost, ""


class Link:
    """What lies between a device and the server in one line."""

    def __init__(self, replay, device, lost):
        self.replay, self.device, self.lost = replay, device, lost
        self.count = 0

    def ask(self, request):
        self.device.made.append(request)
        self.count += 1
        if self.count in self.lost["request"]:
            raise Ended("= link")
        answer = self.replay.server.handle(request, self.replay.clock)
        if self.count in self.lost["reply"]:
            raise Ended("= link")
        return answer


class Replay:
    """A server, and devices in the order of their first lines."""

    def __init__(self):
        self.report = Report()
        self.server, self.devices = Server(self.report), {}
        self.cost, self.clock = 1, 0

    def line(self, number, line):
        """Carries out a line that is in the grammar."""
        word, *words = line.split(" ")
        self.report.number = number
        if word in ("cost", "clock"):
            setattr(self, word, int(words[0]))
        elif word != "seed":
            self.report.say(self.last(word, words))

    def last(self, word, words):
        """Carries out a line that reports, and gives the last line of its report."""
        if word == "late":
            return self.late(words[0], int(words[1]))
        try:
            if word == "show":
                self.show()
            else:
                self.call(word, *words)
        except Ended as ended:
            return ended.last
        return "= ok"

    def call(self, word, name, *words):
        device = self.devices.setdefault(name, Device(name, self.report, self.server))
        if word in ("register", "signin"):
            link = Link(self, device, fates_and_text(words[2:])[0])
            if word == "register":
                device.register(link, *words[:2], self.cost)
            else:
                device.sign_in(link, *words[:2])
        elif word == "put":
            device.put(fates_and_text(words)[1])
        elif word == "sync":
            device.sync(Link(self, device, fates_and_text(words)[0]))
        elif word == "passwd":
            device.passwd(Link(self, device, fates_and_text(words[1:])[0]), words[0], self.cost)
        else:
            uuid = self.report.labelled(int(words[0].removeprefix("#")))
            if uuid is None:
                raise NotAllowed(self.report.number)
            if word == "edit":
                device.edit(uuid, fates_and_text(words[1:])[1])
            elif word == "del":
                device.delete(uuid)

    def late(self, name, number):
        made = self.devices[name].made if name in self.devices else []
        if not 1 <= number <= len(made):
            raise NotAllowed(self.report.number)
        answer = self.server.handle(made[number - 1], self.clock)
        return "= answer %d" % (answer.status if isinstance(answer, Refusal) else 200)

    def show(self):
        say, label, place = self.report.say, self.report.label, self.report.place
        for identifier in self.server.accounts:
            say("account %s set %d" % (identifier, self.server.keys(identifier).number))
            for version in sorted(self.server.items_of(identifier), key=lambda version: place(version.uuid)):
                set_of = "" if version.body is DELETED else "set %d " % version.body.keys.number
                say("item %s @%d %s%s" % (label(version.uuid), version.stamp, set_of, self.report.shown(version.body)))
        for name, device in self.devices.items():
            held = " ".join(str(keys.number) for keys in device.held())
            say("device %s %s" % (name, "none" if device.keys is None else "%s sets %s" % (device.keys.identifier, held)))
            rows = sorted(device.rows, key=lambda row: place(row.uuid))
            for row in rows:
                if row.now is not None:
                    say("draft %s %s %s" % (name, label(row.uuid), self.report.shown(row.now)))
            for row in rows:
                if device.is_closed(row):
                    say("closed %s %s set %d" % (name, label(row.uuid), row.base.body.keys.number))


def report(script):
    """The report of a script whose lines are all in the grammar; NotAllowed is raised where the script is refused."""
    replay = Replay()
    for place, line in enumerate(script.removesuffix("\n").split("\n")):
        if line:
            replay.line(place + 1, line)
    return replay.report.text()

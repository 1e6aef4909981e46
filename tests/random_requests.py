"""Random requests to a server of a few accounts, each made from what the model of its rules (`rule.py`) answered so far."""

import json

import independent
import rule


def uuid_of(number):
    return "00000000-0000-4000-8000-%012x" % number


class Client:
    """The devices of these accounts, as one."""

    def __init__(self, rng, server):
        self.rng, self.server = rng, server
        self.tokens = ["", "x"]
        self.stamps = ["Mjow"]
        self.now = 0

    def next(self):
        self.now = self.rng.choice([0, self.now, self.now + self.rng.randint(0, 5), self.rng.randint(0, 10**6)])
        weights = [3, 2, 2, 4, 30]
        if not self.server.accounts:
            weights = [1, 0, 0, 0, 0]
        route = self.rng.choices(rule.ROUTES, weights)[0]
        token, text = getattr(self, route)()
        return route, token, text, self.now

    def learn(self, status, text):
        answer = json.loads(text)
        if status == 200 and "token" in answer:
            self.tokens.append(answer["token"])
        if status == 200 and "sync_token" in answer:
            self.stamps.append(answer["sync_token"])

    def identifier(self):
        return self.rng.choice(["a", "b", "c"])

    def password(self):
        return "%02x" % self.rng.choice([1, 2]) * 32

    def nonce(self):
        return self.rng.choice(["n0", "n1", "n2", "n3", "n4"])

    def register(self):
        asked = {"email": self.identifier(), "password": self.password(), "pw_cost": 1, "pw_nonce": self.nonce(), "version": "003"}
        return "", json.dumps(asked)

    def params(self):
        return "", "email=" + self.identifier()

    def sign_in(self):
        return "", json.dumps({"email": self.identifier(), "password": self.password()})

    def change_pw(self):
        passwords = {"current_password": self.password(), "new_password": self.password()}
        return self.token(), json.dumps({**passwords, "pw_cost": self.rng.choice([1, 2]), "pw_nonce": self.nonce(), "version": "003"})

    def token(self):
        if self.rng.random() < 0.9:
            return self.server.token(self.rng.randint(1, len(self.server.accounts)))
        return self.rng.choice(self.tokens)

    def sync(self):
        asked = {"api": "20190520", "items": [self.item() for _ in range(self.rng.choice([0, 1, 1, 2, 5]))]}
        for name in ("sync_token", "cursor_token"):
            given = self.rng.choice([None, None, self.rng.choice(self.stamps), rule.token_text(self.rng.randint(0, 50))])
            if self.rng.random() < 0.05:
                given = self.rng.choice(["Mjo=", "Mzox", ""])
            if given is not None or self.rng.random() < 0.5:
                asked[name] = given
        if self.rng.random() < 0.6:
            asked["limit"] = self.rng.choice([1, 2, 3, 500])
        if self.rng.random() < 0.03:
            self.now = self.rng.choice([rule.LAST_STAMP, rule.LAST_STAMP - 1, rule.LAST_STAMP + 1])
        return self.token(), json.dumps(asked)

    def item(self):
        uuid = uuid_of(self.rng.randint(1, 6))
        stored = self.server.items.get(uuid)
        if stored is not None and self.rng.random() < 0.3:
            item = stored.given(uuid)
        else:
            item = {"uuid": uuid, "content_type": self.rng.choice(["Note", "Tag"])}
            if self.rng.random() < 0.25:
                item["deleted"] = True
            else:
                item["content"], item["enc_item_key"] = self.string(uuid), self.string(uuid)
        if stored is not None and self.rng.random() < 0.6:
            item["updated_at"] = rule.stamp_text(stored.updated)
        elif self.rng.random() < 0.3:
            item["updated_at"] = self.rng.choice([None, "", rule.stamp_text(self.rng.randint(0, 10**6)), "2019-05-20"])
        return item

    def string(self, uuid):
        """A 003 string, mostly of this uuid and of present parameters."""
        drawn = self.rng.random()
        if drawn < 0.05:
            return self.rng.choice(["x", "", "003:::::", "\u00e9\u0001\"\\"])
        named = uuid if drawn > 0.1 else uuid_of(7)
        identifier, cost, nonce = self.server.present(self.rng.randint(1, len(self.server.accounts)))
        if drawn > 0.9:
            nonce = "n9"
        part = independent.params_part(identifier, cost, nonce)
        ciphertext = self.rng.choice(["AAAAAAAAAAAAAAAAAAAAAA==", "AAAAAAAAAAAAAAAAAAAAAQ=="])
        return ":".join(["003", "0" * 64, named, "0" * 32, ciphertext, part])

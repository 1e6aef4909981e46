"""How many items a request may have, how long a string may be, and what fits into an answer by its bytes, at `sn serve`: what is
answered is the model's of the rules (`rule.py`), and so is what the store holds then.
"""

import json
import unittest

import independent
import random_requests
from test_requests import Rules, register, sync, token_of

PART = independent.params_part("a", 110000, "n0")
MEGABYTE = 1_048_576


def item(number, content):
    return {"uuid": random_requests.uuid_of(number), "content_type": "Note", "content": content, "enc_item_key": content}


def string_of(number, size):
    """A 003 string of this item, of at most so many bytes."""
    front = ":".join(["003", "0" * 64, random_requests.uuid_of(number), "0" * 32, ""])
    ciphertext = "AAAA" * ((size - len(front) - len(PART) - 1) // 64 * 16)
    return front + ciphertext + ":" + PART


class Pages(Rules):
    def in_turn_of_one(self, *requests):
        """A registration, and then these requests, each answered as by the model. What each sync was told."""
        self.begin()
        with self.served():
            self.takes(register("a", "n0"))
            answers = [self.takes(sync(self.model.token(1), *items, **members)) for items, members in requests]
            self.holds()
        return answers

    def test_numbers_and_lengths(self):
        small = [item(10 + number, "x") for number in range(501)]
        answers = self.in_turn_of_one(
            (small, {}),
            (small[:500], {}),
            ([item(1, "x" * (MEGABYTE + 1))], {}),
            ([item(1, "x" * MEGABYTE)], {}),
            ([{**item(1, "x"), "enc_item_key": "x" * (MEGABYTE + 1)}, item(2, "x" * (MEGABYTE + 1))], {}),
        )
        self.assertEqual([status for status, _ in answers], [413, 200, 413, 200, 413])

    def test_pages_and_conflicts_by_their_bytes(self):
        large = {number: item(number, string_of(number, 1_000_000)) for number in range(1, 6)}
        answers = self.in_turn_of_one(
            ([large[1], large[2], large[3]], {}),
            ([large[4], large[5]], {"sync_token": token_of(3)}),
            ([], {}),
            ([], {"sync_token": token_of(2), "limit": 3}),
            ([], {"cursor_token": token_of(1), "limit": 1}),
            ([item(number, string_of(number, 500)) for number in range(1, 6)], {"sync_token": token_of(5)}),
        )
        goes_on = [json.loads(text)["cursor_token"] is not None for _, text in answers[:-1]]
        self.assertEqual(goes_on, [False, False, True, True, True])


if __name__ == "__main__":
    unittest.main()

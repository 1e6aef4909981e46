"""Two devices behind proxies that drop requests and answers, cut answers off, and deliver requests once more later: no edit
that was acknowledged is lost, and nothing is there twice."""

import collections
import os
import unittest

import devices
import random_edits
import scripted
import serving

STEPS = int(os.environ.get("SN_LOSSES", "240"))
SEEDS = 1, 2
TOGETHER_EVERY = 40
# What a sync says where a message was lost: the connection broke, or what came is no answer.
LOST = (5, b"", b"sn: link fault\n"), (11, b"", b"sn: answer head\n")


class Losses(unittest.TestCase):
    def step(self, pair):
        """A command of a device, and how it ended."""
        device, command, uuid, content = pair.choose()
        before = device.items()
        options = ["--uuid", uuid] if uuid else []
        status, out, err = device.run(command, *options, given=(content or "").encode())
        if command == "sync":
            self.assertIn((status, out, err), ((0, b"ok\n", b""), *LOST))
        else:
            self.assertEqual((status, err), (0, b""))
        pair.holds(device, command, uuid, content, before, out.decode())
        return status

    def lossless(self, pair, proxies):
        for proxy in proxies:
            proxy.loses = False
        pair.together()
        for proxy in proxies:
            proxy.loses = True

    def test_nothing_is_lost_or_doubled(self):
        happened = collections.Counter()
        for seed in SEEDS:
            with self.subTest(seed=seed):
                happened += self.run_with(seed)
        print(", ".join("%s %d" % each for each in sorted(happened.items())), end=" ... ", flush=True)
        for each in (*scripted.Losing.WAYS, "late", "status 0", "status 5", "status 11"):
            self.assertGreater(happened[each], 0, each)

    def run_with(self, seed):
        """How often each loss and each status came."""
        happened = collections.Counter()
        with devices.folder() as folder, serving.Served(os.path.join(folder, "server")) as server:
            pair = random_edits.Pair(self, folder, server.port, seed)
            with scripted.Losing(server.port, seed) as first, scripted.Losing(server.port, seed + 100) as second:
                proxies = first, second
                for device, proxy in zip(pair.devices, proxies):
                    device.server = "127.0.0.1:%d" % proxy.port
                for step in range(1, STEPS + 1):
                    happened["status %d" % self.step(pair)] += 1
                    if step % TOGETHER_EVERY == 0:
                        self.lossless(pair, proxies)
                self.lossless(pair, proxies)
                for proxy in proxies:
                    happened.update(proxy.lost)
                    happened["late"] += proxy.late
        return happened


if __name__ == "__main__":
    unittest.main()

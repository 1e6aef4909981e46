"""A device that is killed at any moment of its commands: after a reload each edit that it acknowledged is there, nothing is
half, and the next syncs bring both devices together."""

import os
import random
import subprocess
import time
import unittest

import devices
import program
import random_edits
import serving

# How often a command is killed: so many times, or, where nothing else is asked, no longer than this.
KILLS = int(os.environ.get("SN_KILLS", "200"))
KILLING_SECONDS = float("inf") if "SN_KILLS" in os.environ else 75
FEWEST_KILLS = 40
SEED = 20261128
# How long a command takes, until one has shown it.
FIRST_GUESS = 0.03
TOGETHER_EVERY = 8

drawn = random.Random(SEED)


class Killed(unittest.TestCase):
    def wait(self, process, store, command):
        """Until some moment: a part of the time that the command takes, or shortly after it began to write."""
        if drawn.random() < 0.5:
            time.sleep(drawn.uniform(0, 1.1 * self.taken[command]))
            return
        size, until = os.path.getsize(store), time.monotonic() + 1
        while os.path.getsize(store) == size and process.poll() is None and time.monotonic() < until:
            pass
        time.sleep(drawn.choice((0, 0, drawn.uniform(0, self.taken[command] / 2))))

    def killed(self, words, given, store, command):
        """Whether it was killed before its end, and what it had written."""
        began = time.monotonic()
        process = subprocess.Popen([program.SN, *words], stdin=subprocess.PIPE, stdout=subprocess.PIPE, stderr=subprocess.PIPE)
        try:
            process.stdin.write(given)
            process.stdin.close()
        except BrokenPipeError:
            pass
        self.wait(process, store, command)
        process.kill()
        out, err = process.stdout.read(), process.stderr.read()
        process.stdout.close()
        process.stderr.close()
        status = process.wait()
        self.assertIn((status, err), ((0, b""), (-9, b"")))
        if status == 0:
            self.taken[command] = 0.7 * self.taken[command] + 0.3 * (time.monotonic() - began)
        return status != 0, out.decode()

    def test_killed_at_any_moment(self):
        self.taken = dict.fromkeys(random_edits.COMMANDS, FIRST_GUESS)
        kills, unharmed, rounds = dict.fromkeys(self.taken, 0), 0, 0
        # On a disk, where a command spends most of its time between its writes.
        with devices.folder(in_memory=False) as folder, serving.Served(os.path.join(folder, "server")) as server:
            pair = random_edits.Pair(self, folder, server.port, SEED)
            began = time.monotonic()
            while sum(kills.values()) < KILLS and (sum(kills.values()) < FEWEST_KILLS or time.monotonic() - began < KILLING_SECONDS):
                rounds += 1
                self.assertLess(rounds, 20 * KILLS + 100)
                device, command, uuid, content = pair.choose()
                before = device.items()
                words = pair.words(device, command, uuid)
                was_killed, out = self.killed(words, (content or "").encode(), device.store, command)
                kills[command] += was_killed
                unharmed += not was_killed
                pair.holds(device, command, uuid, content, before, out)
                if rounds % TOGETHER_EVERY == 0:
                    pair.together()
            pair.together()
        told = ", ".join("%d in %s" % (count, command) for command, count in kills.items())
        print("killed %s; %d ended first" % (told, unharmed), end=" ... ", flush=True)


if __name__ == "__main__":
    unittest.main()

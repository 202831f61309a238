"""Random worlds of a leader and a follower: the leader grows, sends what `export` writes, and frames come to `follow` late, again, in another order
or never. The follower's file is always a front of the leader's, and the whole of it once each frame came in its order."""
import concurrent.futures
import os
import random
import subprocess
import time

import checks
from devices.journal_file import JOURNAL, journal, kept
from models.followers import LONG, frame, framed, taken


class World:
    """Two folders, how many payloads the leader has, and how many the follower holds; and the numbers of all that was ever sent."""

    def __init__(self, draw, leader, follower):
        self.draw, self.leader, self.follower = draw, leader, follower
        self.size, self.held, self.sent, self.wrong = 0, 0, [], []

    def wants(self, what, got, wanted):
        if got != wanted:
            self.wrong.append((what, self.size, self.held, str(got)[:200], "and not", str(wanted)[:200]))

    def run(self, folder, words, given=b""):
        done = subprocess.run([checks.PROGRAM, *words], input=given, stdout=subprocess.PIPE, stderr=subprocess.DEVNULL, cwd=folder, timeout=60)
        return done.returncode, done.stdout

    def grow(self):
        """The leader takes some more of the entries."""
        self.size = min(len(LONG), self.size + self.draw.choice([1, 1, 2, 3, 5]))
        with open(os.path.join(self.leader, JOURNAL), "wb") as out:
            out.write(journal(*LONG[:self.size]))

    def send(self):
        """The leader sends what stands above a number."""
        above = self.draw.randrange(self.size + 2)
        self.wants(f"export {above}", self.run(self.leader, ["export", str(above)]), (0, framed(LONG[:self.size], above)))
        self.sent += range(above + 1, self.size + 1)

    def deliver(self):
        """Some of what was sent comes, in any order, some of it again."""
        messages = [self.draw.choice(self.sent) for _ in range(self.draw.randrange(1, 8))] if self.sent else []
        if self.draw.random() < 0.5:
            messages.sort()
        self.take(messages)

    def take(self, messages):
        self.held, ended = taken(self.held, messages)
        got = self.run(self.follower, ["follow"], b"".join(frame(k, LONG[k - 1]) for k in messages))
        self.wants(f"follow of {messages}", got, ended)
        self.wants("the follower's file", kept(self.follower), journal(*LONG[:self.held]))

    def come_in_order(self):
        """At last all frames come in their order, with others between them."""
        messages = []
        for number in range(1, self.size + 1):
            messages += [self.draw.randrange(1, self.size + 1) for _ in range(self.draw.randrange(2))] + [number]
        self.take(messages)
        self.wants("the follower's file and the leader's", kept(self.follower), kept(self.leader))


def faults_of(seed):
    """What is wrong about the world of a seed."""
    draw = random.Random(seed)
    with checks.folder() as leader, checks.folder() as follower:
        world = World(draw, leader, follower)
        world.grow()
        for _ in range(draw.randrange(2, 8)):
            draw.choice([world.grow, world.send, world.deliver, world.deliver])()
        world.come_in_order()
        return world.wrong


def worlds(count=400, seed=None):
    """So many worlds, each of which counts as one check."""
    seed = time.time_ns() % 1_000_000_000 if seed is None else seed
    print(f"{count} worlds of a follower, of the seeds from {seed}")
    with concurrent.futures.ThreadPoolExecutor(os.cpu_count()) as pool:
        for number, wrong in enumerate(pool.map(faults_of, range(seed, seed + count)), seed):
            checks.check(f"the world of seed {number}", wrong, [])

"""Kills runs at drawn moments, in the present folder, then takes images away, and reads what the pool has.

usage: lost.py RAIDZX ROUNDS SEED

In each round a pool of a drawn shape is made, and some blocks are synced. A run of several clients, each with ids of its
own, is carried out to its end, and then, from the same images, killed in its midst; every other one attaches an image
and copies. As many images as the pool may lose are taken away, or are blank. What is read then of each client's ids are
its blocks after some of its calls, of a whole run after all of them; and so it stays.

Prints how many runs were killed, and how many images were taken away. Ends with 1 where an answer is wrong, which it
prints.
"""

import functools
import hashlib
import pathlib
import random
import re
import subprocess
import sys
import time

LETTERS = "abcdefgh"
LENGTHS = (1, 200, 511, 512, 513, 1024, 2000, 3000, 5000, 9000, 20000)
KINDS = ("put", "put", "put", "put", "free", "sum", "get", "sync")
# The most calls of a client before its last sync.
CALLS = 25
ROWS = (64, 128, 256, 1024, 4096)

program, rounds, seed = sys.argv[1], int(sys.argv[2]), int(sys.argv[3])
draw = random.Random(seed)


def wrong(where, found):
    print(f"FAILED round {where} of seed {seed}: {found}")
    sys.exit(1)


@functools.cache
def told(length, first):
    """What a sum of the block that `put ID LENGTH FIRST` stores answers."""
    block = bytes((first + 7 * at + at // 256) % 256 for at in range(length))
    return f"length {length} sha {hashlib.sha256(block).hexdigest()}"


def command(names, words, script="", killed_after=None):
    """Carries out a command on these images, and returns its status and what it wrote. It may be killed."""
    with subprocess.Popen(
        [program, *names, "--", *words],
        stdin=subprocess.PIPE, stdout=subprocess.PIPE, stderr=subprocess.STDOUT, text=True,
    ) as child:
        child.stdin.write(script)
        child.stdin.close()
        if killed_after is not None:
            time.sleep(killed_after)
            child.kill()
        text = child.stdout.read()
    return child.returncode, text


class Round:
    """A pool, and the calls of clients on it."""

    def __init__(self, number):
        self.number = number
        self.parity = draw.choice((1, 1, 2, 3))
        self.width = draw.randint(self.parity + 1, self.parity + 4)
        self.images = [f"disk{device}" for device in range(self.width + 1)]
        self.ids = {letter: range(100 * at, 100 * at + draw.choice((2, 4, 8)))
                    for at, letter in enumerate(LETTERS[:draw.choice((1, 2, 3, 8))])}
        # There is room for the block of each put, also if nothing were given back: a content sector takes parity + 1.
        puts = sum(len(ids) + CALLS for ids in self.ids.values())
        most = {rows: rows * self.width // ((self.parity + 1) * puts) for rows in ROWS}
        self.rows = draw.choice([rows for rows in ROWS if most[rows] > 0])
        self.lengths = [length for length in LENGTHS if length <= 512 * most[self.rows]]
        for image in self.images:
            self.blank(image)
        names = self.images[:-1]
        self.expect(names, ["create", "--parity", str(self.parity), "--width", str(self.width), "--id", "9"])
        puts = [f"a {self.put(id)}" for ids in self.ids.values() for id in ids if draw.random() < 0.8]
        self.expect(names, ["run"], "\n".join(["clients 1", *puts, "a sync", ""]))
        self.synced = self.sums(names)

    def blank(self, image):
        pathlib.Path(image).write_bytes(bytes(512 * (192 + self.rows)))

    def put(self, id):
        return f"put {id} {draw.choice(self.lengths)} {draw.randrange(256)}"

    def expect(self, names, words, script=""):
        status, text = command(names, words, script)
        if status != 0:
            wrong(self.number, f"status {status}: {text}")
        return text

    def sums(self, names):
        """What the pool of these images answers of each id."""
        ids = [id for ids in self.ids.values() for id in ids]
        text = self.expect(names, ["run"], "".join(["clients 1\n", *(f"a sum {id}\n" for id in ids)]))
        return {int(id): answer for id, answer in re.findall(r"^\d+ a\.\d+ sum (\d+) at \d+ (.*)$", text, re.M)}

    def calls(self):
        """Some calls of each client, a sync behind them."""
        drawn = {}
        for letter, ids in self.ids.items():
            drawn[letter] = []
            for _ in range(draw.randint(2, CALLS)):
                kind, id = draw.choice(KINDS), draw.choice(ids)
                drawn[letter].append(self.put(id) if kind == "put" else kind if kind == "sync" else f"{kind} {id}")
            drawn[letter].append("sync")
        return drawn

    def blocks_after(self, letter, calls):
        """What a client's ids may have: before the first of these calls, and behind each."""
        blocks = {id: self.synced[id] for id in self.ids[letter]}
        states = [dict(blocks)]
        for call in calls:
            match call.split(" "):
                case ["put", id, length, first]:
                    blocks[int(id)] = told(int(length), int(first))
                case ["free", id]:
                    blocks[int(id)] = "absent"
            states.append(dict(blocks))
        return states

    def take_away(self, names):
        """Takes images away, at most as many as the pool may lose."""
        lost = draw.sample(names, draw.randint(0, self.parity))
        for image in lost:
            if draw.random() < 0.5:
                pathlib.Path(image).unlink()
            else:
                self.blank(image)
        return lost

    def check(self, names, may_be, when):
        """What is read without some images is one of these states of each client, and is read once more."""
        lost = self.take_away(names)
        found = self.sums(names)
        for letter, ids in self.ids.items():
            if {id: found.get(id) for id in ids} not in may_be[letter]:
                wrong(self.number, f"{when}, without {lost}, client {letter}: {found}")
        if self.sums(names) != found:
            wrong(self.number, f"{when}, without {lost}: it is read otherwise again")
        return len(lost)

    def carry_out(self):
        """Carries the calls out whole, and killed. Returns whether the second run was, and how many images were lost."""
        attaches = draw.random() < 0.5
        names = self.images if attaches else self.images[:-1]
        words = ["run", "--attach"] if attaches else ["run"]
        calls = self.calls()
        lines = [f"{letter} {call}" for letter in calls for call in calls[letter]]
        script = "\n".join([f"clients {len(calls)}", *lines, ""])
        may_be = {letter: self.blocks_after(letter, calls[letter]) for letter in calls}
        before = {image: pathlib.Path(image).read_bytes() for image in names}
        began = time.monotonic()
        self.expect(names, words, script)
        took = time.monotonic() - began
        lost = self.check(names, {letter: states[-1:] for letter, states in may_be.items()}, "run whole")
        for image, data in before.items():
            pathlib.Path(image).write_bytes(data)
        status, _ = command(names, words, script, took * draw.random())
        return status != 0, lost + self.check(names, may_be, "killed")


killed = lost = 0
for number in range(1, rounds + 1):
    was_killed, without = Round(number).carry_out()
    killed += was_killed
    lost += without
print(f"{killed} runs killed, {lost} images taken away")

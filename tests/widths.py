"""Widens pools of one parity from each width to 16, in the present folder, and reads each block behind each copy.

usage: widths.py RAIDZX PARITY

Prints how many pools were widened, how many copies that took, and how many blocks were read. Ends with 1 where an answer
is wrong, which it prints.
"""

import functools
import hashlib
import itertools
import pathlib
import subprocess
import sys

SECTORS = 256
ROWS = 64
# The content of a block, in sectors: one, such that fill rows or fall short of them, and the most that a block has.
CONTENTS = (1, 2, 3, 5, 8, 13, 21, 34, 55, 89, 128, 15, 16, 31, 32, 47, 64, 127)

program, parity = sys.argv[1], int(sys.argv[2])


def image(number):
    return f"disk{number}"


def fresh(count):
    for number in range(count):
        pathlib.Path(image(number)).write_bytes(b"\xa5" * (512 * SECTORS))


def run(width, calls, out=()):
    """Carries out calls of one client on that many images, some of them missing, and returns its answers."""
    names = ["missing" if number in out else image(number) for number in range(width)]
    script = "clients 1\n" + "".join(f"a {call}\n" for call in calls)
    ended = subprocess.run([program, *names, "--", "run"], input=script, capture_output=True, text=True, check=False)
    answers = [line.split(" ", 2)[2] for line in ended.stdout.splitlines() if line.split(" ")[1].startswith("a.")]
    if ended.returncode != 0 or len(answers) != len(calls):
        wrong(f"{width} images without {out}: status {ended.returncode}", ended.stdout + ended.stderr)
    return answers


def wrong(where, found):
    print(f"FAILED parity {parity}, {where}: {found}")
    sys.exit(1)


def block(length, seed):
    """The bytes that `put ID LENGTH SEED` stores."""
    return bytes((seed + 7 * at + at // 256) % 256 for at in range(length))


def copies():
    """The state of all images, and back to it."""
    return {path: path.read_bytes() for path in pathlib.Path().glob("disk*")}


def back(kept):
    for path, data in kept.items():
        path.write_bytes(data)


@functools.cache
def told(length, seed):
    """What a sum of such a block answers."""
    return f"length {length} sha {hashlib.sha256(block(length, seed)).hexdigest()}"


pools = widened = read = 0
for first in range(parity + 1, 16):
    fresh(16)
    names = [image(device) for device in range(first)]
    subprocess.run(
        [program, *names, "--", "create", "--parity", str(parity), "--width", str(first), "--id", "9"],
        check=True, stdout=subprocess.DEVNULL,
    )
    blocks, contents = {}, itertools.cycle(CONTENTS)
    for width in range(first, 17):
        if width > first:
            attach, copy = run(width, ["attach", "copy"])
            if not attach.startswith(f"attach width {width} group ") or copy != f"copy done width {width}":
                wrong(f"from {first} to {width}", f"{attach}, {copy}")
            widened += 1
        # Four more blocks, as far as they find room.
        new = {}
        for _ in range(4):
            content = next(contents)
            new[len(blocks) + len(new)] = (512 * content - 5 * (content % 3), 3 * content + width)
        puts = run(width, ["sync", *(f"put {id} {length} {seed}" for id, (length, seed) in new.items()), "sync"])
        for (id, what), answer in zip(new.items(), puts[1:-1]):
            if answer == f"put {id} ok":
                blocks[id] = what
            elif not answer.startswith(f"put {id} no space "):
                wrong(f"a put at width {width} from {first}", answer)
        kept = copies()
        for out in ((), tuple(range(width - parity, width)), tuple(range(parity))):
            sums = run(width, [f"sum {id}" for id in blocks], out)
            for (id, what), answer in zip(blocks.items(), sums):
                words = answer.split(" ", 4)
                if words[:2] != ["sum", str(id)] or words[4] != told(*what):
                    wrong(f"block {id} at width {width} from {first} without {out}", answer)
                read += 1
            back(kept)
    pools += 1
print(f"{pools} pools, {widened} copies, {read} blocks read")

#!/usr/bin/env python3
"""Runs the gate and tells what it took, crate by crate, as a table in Markdown.

usage, at the top of the repository: docs/gate_times.py rt ci --anew

Processor seconds come from /proc, where each process that the command starts is looked at five times a second: what
one takes after the last look is under "the rest", as are processes that no look met.
"""

import glob
import os
import re
import resource
import subprocess
import sys
import time

TICKS = os.sysconf("SC_CLK_TCK")
KINDS = ("proof", "tests", "wrong bodies")


def process(pid):
    """Returns a process's parent, its start and its processor seconds, or None if it has ended."""
    try:
        with open(f"/proc/{pid}/stat", encoding="ascii", errors="replace") as file:
            fields = file.read().rpartition(")")[2].split()
    except OSError:
        return None
    return int(fields[1]), fields[19], (int(fields[11]) + int(fields[12])) / TICKS


def work_of(pid):
    """Returns the crate and the kind of work that a process does, or None if its words don't tell."""
    try:
        with open(f"/proc/{pid}/cmdline", encoding="utf-8", errors="replace") as file:
            words = file.read().split("\0")
        folder = os.readlink(f"/proc/{pid}/cwd")
    except OSError:
        return None
    line = " ".join([folder, *words])
    found = re.search(r"--crate-name (\w+)", line) or re.search(r"/crates/(\w+?)/out/", line)
    if not found:
        return None
    if "rt-edit" in line:
        return found[1], "wrong bodies"
    return found[1], "tests" if "--test" in words or f"{found[1]}_tests" in line else "proof"


def below(top, processes):
    """Returns the processes that descend from one."""
    children = {}
    for pid, (parent, _, _) in processes.items():
        children.setdefault(parent, []).append(pid)
    found, left = [], [top]
    while left:
        found += (more := children.get(left.pop(), []))
        left += more
    return found


def watch(command):
    """Runs a command, and returns its status, the seconds by crate and kind, and all seconds of it."""
    started = subprocess.Popen(command)
    works, taken = {}, {}
    while started.poll() is None:
        processes = {int(it): found for it in os.listdir("/proc") if it.isdigit() and (found := process(it))}
        for pid in below(started.pid, processes):
            _, start, seconds = processes[pid]
            if works.get((pid, start)) is None:
                works[pid, start] = work_of(pid)
            taken[pid, start] = seconds
        time.sleep(0.2)
    sums = {}
    for key, seconds in taken.items():
        if works[key]:
            sums[works[key]] = sums.get(works[key], 0) + seconds
    used = resource.getrusage(resource.RUSAGE_CHILDREN)
    return started.returncode, sums, used.ru_utime + used.ru_stime


def lines_in(file):
    with open(file, encoding="utf-8") as text:
        return sum(1 for _ in text)


def lines_of(crate):
    """Returns how many lines a crate has in src/, specs/ and proofs/."""
    files = [it for part in ("src", "specs", "proofs") for it in glob.glob(f"crates/{crate}/{part}/**", recursive=True)]
    return sum(lines_in(it) for it in files if it.endswith((".rt", ".antt")))


def tell(sums, whole):
    print("| crate | lines | proof | tests | wrong bodies |\n|---|---|---|---|---|")
    with open("crates.txt", encoding="utf-8") as file:
        crates = re.findall(r"(?m)^(\w+)", file.read())
    for crate in crates:
        tried = len(glob.glob(f"crates/{crate}/must-fail/*.edit"))
        cells = [f"{sums.get((crate, kind), 0):.0f}" for kind in KINDS]
        print(f"| `{crate}` | {lines_of(crate):,} | {cells[0]} | {cells[1]} | {cells[2]} of {tried} |")
    each = [sum(seconds for (_, it), seconds in sums.items() if it == kind) for kind in KINDS]
    print(f"| sum | {sum(map(lines_of, crates)):,} | {each[0]:,.0f} | {each[1]:,.0f} | {each[2]:,.0f} |")
    print(f"\nthe rest {whole - sum(each):,.0f} s; in all {whole / 60:.0f} minutes of processor time")


def main():
    start = time.monotonic()
    status, sums, whole = watch(sys.argv[1:])
    tell(sums, whole)
    print(f"{(time.monotonic() - start) / 60:.0f} minutes on {len(os.sched_getaffinity(0))} processors")
    sys.exit(status)


if __name__ == "__main__":
    main()

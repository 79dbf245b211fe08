#!/usr/bin/env python3
"""Runs a command, by default `rt ci` at the top of the repository, and shows the processor seconds that its checks took, by crate.

A row has a crate, the seconds of its proof, of its tests and of its must-fail edits, and the crates stand in the order of their sums.
The last lines give the sums in minutes, and the longest chain of proofs along crates.txt: the time that no number of processors shortens.
The seconds are sampled twice a second from /proc, so a check that is shorter than that is not seen; needs Linux.
"""
import collections
import os
import subprocess
import sys
import time

import house

TICKS = os.sysconf("SC_CLK_TCK")
KINDS = ("proof", "tests", "edits")


def kind_of(words, folder):
    """What a check is for: an edit is tried in a folder of its own, tests are checked under --test."""
    if "rt-edit" in folder or words[1] == "check":
        return "edits"
    return "tests" if "--test" in words else "proof"


def sample(seen):
    """Notes of each running check its crate, what it is for, and its processor seconds so far."""
    for number in filter(str.isdigit, os.listdir("/proc")):
        try:
            with open(f"/proc/{number}/cmdline", encoding="utf-8") as it:
                words = it.read().split("\0")
            if not words[0].endswith("/rattle") or "--crate-name" not in words:
                continue
            with open(f"/proc/{number}/stat", encoding="utf-8") as it:
                fields = it.read().rpartition(")")[2].split()
            folder = os.readlink(f"/proc/{number}/cwd")
        except OSError:
            continue
        crate = words[words.index("--crate-name") + 1]
        seen[number, fields[19]] = crate, kind_of(words, folder), (int(fields[11]) + int(fields[12])) / TICKS


def chain(seconds):
    """The crates of the longest chain of proofs, lowest first, and its seconds."""
    lines = dict(line for _, crates in house.rooms() for line in crates)
    best = {}

    def of(crate):
        if crate not in best:
            below = max((of(low) for low in lines[crate] if low in lines), default=(0, []))
            best[crate] = below[0] + seconds[crate]["proof"], [*below[1], crate]
        return best[crate]

    return max(of(crate) for crate in lines)


def show(seen):
    """Prints the rows, the sums and the chain."""
    seconds = collections.defaultdict(collections.Counter)
    for crate, kind, spent in seen.values():
        seconds[crate][kind] += spent
    print("| Crate | " + " | ".join(KINDS) + " |\n|---|---|---|---|")
    for crate, row in sorted(seconds.items(), key=lambda it: -it[1].total()):
        print(f"| {crate} | " + " | ".join(f"{row[kind]:.0f}" if row[kind] else "" for kind in KINDS) + " |")
    sums = {kind: sum(row[kind] for row in seconds.values()) / 60 for kind in KINDS}
    print("\nminutes: " + ", ".join(f"{kind} {sums[kind]:.0f}" for kind in KINDS) + f", together {sum(sums.values()):.0f}")
    spent, crates = chain(seconds)
    print(f"the longest chain: {spent / 60:.1f} minutes: {', '.join(crates)}")


def main():
    seen = {}
    begun = time.monotonic()
    with subprocess.Popen(sys.argv[1:] or ["rt", "ci"], cwd=house.TOP) as run:
        while run.poll() is None:
            sample(seen)
            time.sleep(0.5)
    show(seen)
    print(f"by the clock: {(time.monotonic() - begun) / 60:.1f} minutes on {os.cpu_count()} processors")
    return run.returncode


if __name__ == "__main__":
    sys.exit(main())

#!/usr/bin/env python3
"""Counts imports into another crate's proofs/, by the crate that is imported from, and lines of crates.txt that name a later room.

The rooms are the sections of crates.txt, in its order: a crate names crates of its own room and of earlier ones. With --all each import is
shown. Ends with both counts, and with status 1 where one is more than is allowed; the numbers may only fall.
"""
import collections
import sys

import house

ALLOWED_IMPORTS = 552
ALLOWED_STEPS_BACK = 0


def steps_back():
    """The pairs of crates of which the first names the second, which stands in a later room."""
    room = {name: at for at, (_, crates) in enumerate(house.rooms()) for name, _ in crates}
    return [(name, low) for _, crates in house.rooms() for name, listed in crates for low in listed if room.get(low, 0) > room[name]]


def main():
    show = "--all" in sys.argv[1:]
    by = collections.Counter()
    for _, crates in house.rooms():
        for crate, _ in crates:
            for _, path, text in house.files(crate):
                for name, module in house.foreign_proofs(crate, text):
                    by[name] += 1
                    if show:
                        print(f"{path}: {name} {module}")
    back = steps_back()
    for name, count in by.most_common():
        print(f"{name}: {count}")
    for name, low in back:
        print(f"{name} names {low}, which stands in a later room")
    print(f"imports into another crate's proofs: {by.total()}, allowed {ALLOWED_IMPORTS}")
    print(f"steps back: {len(back)}, allowed {ALLOWED_STEPS_BACK}")
    return by.total() > ALLOWED_IMPORTS or len(back) > ALLOWED_STEPS_BACK


if __name__ == "__main__":
    sys.exit(main())

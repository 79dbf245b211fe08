#!/usr/bin/env python3
"""Shows each library that a line of crates.txt lists though no file of the crate names it, and each that is named but not listed.

Ends with how many there are, and with status 1 where they are more than ALLOWED, which may only fall.
"""
import sys

import house

ALLOWED = 0


def main():
    lines = [line for _, crates in house.rooms() for line in crates]
    own = {name for name, _ in lines}
    kit = {name for _, listed in lines for name in listed} - own
    wrong = 0
    for crate, listed in lines:
        used = set()
        for part, _, text in house.files(crate):
            used |= house.named(text, part == "src")
        used = (used & (own | kit)) - {crate}
        for name in sorted(set(listed) ^ used):
            wrong += 1
            print(f"{crate}: {name} is {'listed, and no file names it' if name in listed else 'named, and not listed'}")
    print(f"lines that are not direct: {wrong} of {sum(len(listed) for _, listed in lines)}, allowed {ALLOWED}")
    return wrong > ALLOWED


if __name__ == "__main__":
    sys.exit(main())

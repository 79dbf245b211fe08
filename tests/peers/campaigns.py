#!/usr/bin/env python3
"""Campaigns over the whole runs of fourteen compiled programs.

Each program is compiled, run to its end, audited, and flipped: at each step one bit of each register. What a program prints unflipped is
compared with what is written here, worked out by hand or by Python. A flip that goes unseen outside the windows is an error, and so is an
audit that isn't passed.

Build the program first: rt ci. Usage: campaigns.py
"""
import subprocess

from peer import PROGRAM, main

LEAST, WORD = -(1 << 31), 1 << 32
# What a campaign may ask for: flips times steps.
MOST = 200_000_000


def signed(word):
    return (word + (1 << 31)) % WORD - (1 << 31)


def fibonacci(n):
    return n if n < 2 else fibonacci(n - 1) + fibonacci(n - 2)


def crc(word):
    for _ in range(8):
        word = word >> 1 ^ (0xEDB88320 if word & 1 else 0)
    return word


PROGRAMS = [
    ("a constant", "int main(void){out_word(5); return 0;}", [], [5], "exit 0"),
    ("a branch", "int main(void){if (in_word()) out_word(1); else out_word(2); return 3;}", [0], [2], "exit 3"),
    ("a loop", "int main(void){int s = 0; for (int i = 1; i <= 9; i++) s += i; out_word(s); return 0;}", [], [45], "exit 0"),
    (
        "the greatest common divisor",
        "int main(void){int a = in_word(), b = in_word(); while (b) {int r = a % b; a = b; b = r;} out_word(a); return 0;}",
        [1071, 462], [21], "exit 0",
    ),
    (
        "recursion",
        "int f(int n){if (n < 2) return n; return f(n - 1) + f(n - 2);} int main(void){out_word(f(5)); return 0;}",
        [], [fibonacci(5)], "exit 0",
    ),
    (
        "a sort",
        "int a[4]; int main(void){for (int i = 0; i < 4; i++) a[i] = in_word(); for (int i = 0; i < 4; i++) for (int j = 0; j + 1 < 4 - i; j++)"
        " if (a[j] > a[j + 1]) {int t = a[j]; a[j] = a[j + 1]; a[j + 1] = t;} for (int i = 0; i < 4; i++) out_word(a[i]); return 0;}",
        [4, -1, 3, 2], [-1, 2, 3, 4], "exit 0",
    ),
    (
        "a switch",
        "int main(void){for (int i = 0; i < 4; i++) switch (i) {case 0: out_word(10); case 1: out_word(11); break; case 3: out_word(13); break;"
        " default: out_word(-1);} return 0;}",
        [], [10, 11, 11, -1, 13], "exit 0",
    ),
    (
        "a check sum",
        "int main(void){unsigned c = in_word(); for (int i = 0; i < 8; i++) {if (c & 1u) c = c >> 1 ^ 0xEDB88320u; else c = c >> 1;}"
        " out_word(c); return 0;}",
        [0xA7], [signed(crc(0xA7))], "exit 0",
    ),
    (
        "a sieve",
        "int s[16]; int main(void){for (int i = 2; i < 16; i++) if (!s[i]) {out_word(i); for (int j = i + i; j < 16; j += i) s[j] = 1;} return 0;}",
        [], [2, 3, 5, 7, 11, 13], "exit 0",
    ),
    (
        "eight parameters",
        "int f(int a, int b, int c, int d, int e, int g, int h, int i){return a + 2 * b + 3 * c + 4 * d + 5 * e + 6 * g + 7 * h + 8 * i;}"
        " int main(void){out_word(f(1, 2, 3, 4, 5, 6, 7, 8)); return 0;}",
        [], [sum(n * n for n in range(1, 9))], "exit 0",
    ),
    (
        "short circuits",
        "int main(void){int a = in_word(); int b = in_word(); int c = in_word(); if ((a && b) || c) out_word(1); else out_word(2); return 0;}",
        [1, 0, 1], [1], "exit 0",
    ),
    ("an index past the end", "int a[3]; int main(void){int i = in_word(); out_word(i); return a[i];}", [3], [3], "trap 8"),
    ("a division by 0", "int main(void){int a = in_word(); out_word(a); return 7 / a;}", [0], [0], "trap 7"),
    (
        "globals",
        "int x = 3; const int t[3] = {5, 7, 9}; void step(void){x = x * t[x % 3] + 1;} int main(void){for (int i = 0; i < 4; i++) {step();"
        " out_word(x);} return x;}",
        [], None, None,
    ),
]


def globals_by_hand():
    x, words = 3, []
    for _ in range(4):
        x = x * (5, 7, 9)[x % 3] + 1
        words.append(x)
    return words, f"exit {x}"


def run(*words):
    done = subprocess.run([PROGRAM, *words], capture_output=True, text=True)
    return done.returncode, done.stdout


def steps_of():
    """The least number of steps with which the run has ended, by halving."""
    low, high = 0, 1 << 16
    while low < high:
        middle = (low + high) // 2
        if "going" in run("run", "a.img", "a.in", str(middle))[1]:
            low = middle + 1
        else:
            high = middle
    return low


def campaign(steps):
    """The counts of the flips before each step of the run, a part of the steps at a time."""
    counts, part = {}, max(1, MOST // (31 * steps))
    for first in range(0, steps, part):
        status, text = run("campaign", "a.img", "a.in", str(steps), str(first), str(min(steps, first + part)))
        if status:
            return None
        for line in text.splitlines():
            name, count = line.split()
            counts[name] = counts.get(name, 0) + int(count)
    return counts


def compare(_count, _seed):
    wrong, flips = 0, 0
    for name, source, feed, words, end in PROGRAMS:
        if words is None:
            words, end = globals_by_hand()
        with open("a.c", "w") as file:
            file.write(source)
        with open("a.in", "w") as file:
            file.write("".join(f"{word}\n" for word in feed))
        status, _ = run("compile", "a.c", "a.img")
        text = run("run", "a.img", "a.in", "100000")[1]
        want = "".join(f"{word}\n" for word in words) + f"{end}\n"
        steps = steps_of()
        audit = run("audit", "a.img", "a.in", str(steps))
        counts = campaign(steps)
        is_wrong = status or text != want or audit[0] or counts is None or counts["silent"]
        wrong += bool(is_wrong)
        flips += sum(counts.values()) if counts else 0
        print(f"{'WRONG ' if is_wrong else ''}{name}: {steps} steps, {counts}, audit {audit[1].split()}")
        if text != want:
            print(f"  printed {text!r}, not {want!r}")
    print(f"{len(PROGRAMS)} programs, {flips} flips, {wrong} wrong")
    return wrong


main(compare, "")

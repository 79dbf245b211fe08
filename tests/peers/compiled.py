#!/usr/bin/env python3
"""Compares compiled programs with the same programs elsewhere: as a host C compiler (cc) builds them, and their images on another
simulator, Unicorn (Debian: python3-unicorn, for /usr/bin/python3), where it is there.

The programs are those of `hardcc make`. A host's run shows the meaning of the C text, and Unicorn's that of the image's words.

Build the program first: rt ci. Usage: compiled.py [PROGRAMS [FIRST NUMBER]]
"""
import shutil
import struct
import subprocess

try:
    import unicorn
    from unicorn import mips_const
except ImportError:
    unicorn = None

from peer import PROGRAM, main

TEXT, MEMORY = 0x00400000, 0x10010000
PUT, EXIT = 1, 17
SYSCALL = 0x0000000C
HEAD = "#include <stdio.h>\nstatic int in_word(void) { return 0; }\nstatic void out_word(int word) { printf(\"%d\\n\", word); }\n"
TAIL = "\nint main(void) { printf(\"exit %d\\n\", made()); return 0; }\n"


def by_host():
    """What the program prints and returns as the host's compiler builds it."""
    with open("a.c") as source:
        text = source.read().replace("int main(void)", "int made(void)")
    with open("host.c", "w") as source:
        source.write(HEAD + text + TAIL)
    subprocess.run(["cc", "-w", "-O1", "-fwrapv", "-o", "host", "host.c"], check=True)
    return subprocess.run(["./host"], capture_output=True, text=True, check=True).stdout


def parts():
    """The words of the text of the image and those that memory begins with."""
    with open("a.img", "rb") as file:
        data = file.read()
    (_, text_at, _, _, text_size, *_), (_, data_at, _, _, data_size, *_) = (struct.unpack(">8I", data[52 + 32 * i:84 + 32 * i]) for i in range(2))
    return data[text_at:text_at + text_size], data[data_at:data_at + data_size]


def signed(word):
    return word - (word >> 31 << 32)


def by_unicorn():
    """What the image prints and exits with on Unicorn: it stops before each syscall, which is done here."""
    text, memory = parts()
    machine = unicorn.Uc(unicorn.UC_ARCH_MIPS, unicorn.UC_MODE_MIPS32 | unicorn.UC_MODE_BIG_ENDIAN)
    machine.mem_map(TEXT, (len(text) + 0xFFF) // 0x1000 * 0x1000)
    machine.mem_map(MEMORY, 0x80000)
    machine.mem_write(TEXT, text)
    machine.mem_write(MEMORY, memory)
    calls = {TEXT + 4 * i for i, (word,) in enumerate(struct.iter_unpack(">I", text)) if word == SYSCALL}
    machine.hook_add(unicorn.UC_HOOK_CODE, lambda uc, address, size, data: address in calls and uc.emu_stop())
    lines, at = [], TEXT
    while True:
        machine.emu_start(at, TEXT + len(text))
        at = machine.reg_read(mips_const.UC_MIPS_REG_PC)
        service, word = (machine.reg_read(r) & 0xFFFFFFFF for r in (mips_const.UC_MIPS_REG_2, mips_const.UC_MIPS_REG_4))
        if at not in calls or service not in (PUT, EXIT):
            return "".join(lines) + f"stopped at {at:#x}\n"
        if service == EXIT:
            return "".join(lines) + f"exit {signed(word)}\n"
        lines.append(f"{signed(word)}\n")
        at += 4


def compare(count, first):
    differing = 0
    for number in range(first, first + count):
        subprocess.run([PROGRAM, "make", str(number), str(1 + number % 20), "a.c"], capture_output=True, check=True)
        subprocess.run([PROGRAM, "compile", "a.c", "a.img"], capture_output=True, check=True)
        open("in", "w").close()
        ours = subprocess.run([PROGRAM, "run", "a.img", "in", "10000000"], capture_output=True, text=True, check=True).stdout
        others = {"the host": by_host()}
        if unicorn:
            others["Unicorn"] = by_unicorn()
        for name, theirs in others.items():
            if ours != theirs:
                differing += 1
                print(f"program {number}: ours ends with {ours[-40:]!r}, that of {name} with {theirs[-40:]!r}")
    print(f"{count} programs, {differing} differ" + ("" if unicorn else "; without Unicorn"))
    return differing


if __name__ == "__main__":
    main(compare, "" if shutil.which("cc") else "cc is not there")

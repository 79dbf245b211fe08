#!/usr/bin/env python3
"""Compares runs of the simulator with runs of another one, Unicorn (Debian: python3-unicorn, for /usr/bin/python3).

Each image has drawn instructions and ends with code that prints memory and all registers. Unicorn executes the drawn part
alone, and its registers and memory are compared with what `hardcc run` prints. Instructions and images are laid out here
anew, from docs/MACHINE.md and docs/IMAGE.md. What Unicorn leaves open or does otherwise (hazards, division by 0, misses)
is not drawn; an overflow ends both runs.

Build the program first: rt ci. Usage: runs.py [IMAGES [SEED]]
"""
import random
import struct
import subprocess

try:
    import unicorn
    from unicorn import mips_const
except ImportError:
    unicorn = None

from peer import PROGRAM, main

TEXT, MEMORY, MEMORY_WORDS = 0x00400000, 0x10010000, 128
# Registers with a use of their own: a counter of turns, the base of memory, and an address or a divisor.
COUNTER, BASE, SPARE = 25, 26, 27
FREE = [r for r in range(1, 32) if r not in (COUNTER, BASE, SPARE)]
NOP = 0
# Unicorn's number of the exception of an overflow.
OVERFLOW = 21
EDGES = [0, 1, 2, 0x7FFF, 0x8000, 0xFFFF, 0x10000, 0x7FFFFFFF, 0x80000000, 0x80000001, 0xFFFFFFFE, 0xFFFFFFFF]

REGISTERS = {"sllv": 4, "srlv": 6, "srav": 7, "add": 32, "addu": 33, "sub": 34, "subu": 35, "and": 36, "or": 37, "xor": 38, "nor": 39, "slt": 42, "sltu": 43}
SHIFTS = {"sll": 0, "srl": 2, "sra": 3}
PRODUCTS = {"mult": 24, "multu": 25}
QUOTIENTS = {"div": 26, "divu": 27}
IMMEDIATES = {"addi": 8, "addiu": 9, "slti": 10, "sltiu": 11, "andi": 12, "ori": 13, "xori": 14}


def by_register(function, rs=0, rt=0, rd=0, sh=0):
    return rs << 21 | rt << 16 | rd << 11 | sh << 6 | function


def by_immediate(opcode, rs, rt, immediate):
    return opcode << 26 | rs << 21 | rt << 16 | immediate & 0xFFFF


def constant(r, value):
    return [by_immediate(15, 0, r, value >> 16), by_immediate(13, r, r, value)]


class Drawn:
    """The words of one image, drawn."""

    def __init__(self, draw, with_overflow):
        self.draw, self.with_overflow, self.words = draw, with_overflow, constant(BASE, MEMORY)
        for r in FREE:
            self.words += constant(r, draw.choice(EDGES) if draw.random() < 0.5 else draw.getrandbits(32))
        for place in range(MEMORY_WORDS // 4):
            self.words.append(by_immediate(43, BASE, draw.choice(FREE), 4 * place))

    def free(self):
        return self.draw.choice([0] + FREE)

    def simple(self):
        """One instruction that goes on to the next one."""
        names = [n for n in list(REGISTERS) + list(SHIFTS) + list(IMMEDIATES) + ["lui", "sw"] if self.with_overflow or n not in ("add", "sub", "addi")]
        name = self.draw.choice(names)
        immediate = self.draw.choice(EDGES[:6]) if self.draw.random() < 0.5 else self.draw.getrandbits(16)
        if name in REGISTERS:
            return by_register(REGISTERS[name], self.free(), self.free(), self.free())
        if name in SHIFTS:
            return by_register(SHIFTS[name], 0, self.free(), self.free(), self.draw.getrandbits(5))
        if name == "lui":
            return by_immediate(15, 0, self.free(), immediate)
        if name == "sw":
            return by_immediate(43, BASE, self.free(), 4 * self.draw.randrange(MEMORY_WORDS // 4))
        return by_immediate(IMMEDIATES[name], self.free(), self.free(), immediate)

    def part(self):
        """Some instructions that belong together."""
        kind = self.draw.choice(["simple"] * 6 + ["load", "product", "quotient", "branch", "jump", "link", "return", "loop"])
        if kind == "simple":
            self.words.append(self.simple())
        elif kind == "load":
            self.words += [by_immediate(35, BASE, self.free(), 4 * self.draw.randrange(MEMORY_WORDS // 4)), NOP]
        elif kind in ("product", "quotient"):
            self.product(kind == "quotient")
        elif kind == "branch":
            skipped = self.draw.randrange(1, 4)
            self.words.append(by_immediate(self.draw.choice([4, 5]), self.free(), self.free(), skipped))
            self.words += [self.simple() for _ in range(skipped + 1)]
        elif kind in ("jump", "link"):
            skipped = self.draw.randrange(1, 4)
            target = TEXT // 4 + len(self.words) + 1 + skipped
            self.words.append((2 if kind == "jump" else 3) << 26 | target)
            self.words += [self.simple() for _ in range(skipped + 1)]
        elif kind == "return":
            self.words += constant(SPARE, TEXT + 4 * (len(self.words) + 6))
            self.words += [by_register(8, SPARE), self.simple(), self.simple(), self.simple()]
        else:
            self.loop()

    def product(self, is_quotient):
        functions = QUOTIENTS if is_quotient else PRODUCTS
        factor = self.free()
        if is_quotient:
            # never 0
            self.words.append(by_immediate(13, factor, SPARE, 1))
            factor = SPARE
        self.words.append(by_register(self.draw.choice(list(functions.values())), self.free(), factor))
        self.words += [by_register(16, rd=self.free()), by_register(18, rd=self.free()), NOP, NOP]

    def loop(self):
        body = [self.simple() for _ in range(self.draw.randrange(1, 4))]
        self.words.append(by_immediate(13, 0, COUNTER, self.draw.randrange(1, 5)))
        self.words += body + [by_immediate(9, COUNTER, COUNTER, -1), by_immediate(5, COUNTER, 0, -len(body) - 2), self.simple()]


def printing():
    """Stores all registers, HI and LO behind the drawn part's memory, and prints all memory."""
    words = [by_immediate(43, BASE, r, 4 * (MEMORY_WORDS // 4 + r)) for r in range(32)]
    words += [by_register(16, rd=SPARE), by_immediate(43, BASE, SPARE, 4 * (MEMORY_WORDS // 4 + 32))]
    words += [by_register(18, rd=SPARE), by_immediate(43, BASE, SPARE, 4 * (MEMORY_WORDS // 4 + 33))]
    for place in range(MEMORY_WORDS // 4 + 34):
        words += [by_immediate(35, BASE, 4, 4 * place), by_immediate(13, 0, 2, 1), 12]
    return words + [by_immediate(13, 0, 2, 17), by_immediate(13, 0, 4, 0), 12]


def image(words):
    """The file of these words, with empty lists and zeros in memory."""
    size = 4 * len(words)
    data = (4096 + size + 4095) // 4096 * 4096
    names = b"\0.text\0.data\0.eddi.windows\0.cfcss.aliases\0.shstrtab\0"
    header = bytes([0x7F, 0x45, 0x4C, 0x46, 1, 2, 1] + [0] * 9)
    header += struct.pack(">2H5I6H", 2, 8, 1, TEXT, 52, data + 52, 1, 52, 32, 2, 40, 6, 5)
    segments = struct.pack(">16I", 1, 4096, TEXT, TEXT, size, size, 5, 4096, 1, data, MEMORY, MEMORY, 0, 4 * MEMORY_WORDS, 6, 4096)
    sections = struct.pack(">10I", *[0] * 10)
    for section in [(1, 1, 6, TEXT, 4096, size, 0, 0, 4, 0), (7, 1, 3, MEMORY, data, 0, 0, 0, 8, 0), (13, 1, 0, 0, data, 0, 0, 0, 4, 8),
                    (27, 1, 0, 0, data, 0, 0, 0, 4, 8), (42, 3, 0, 0, data, 52, 0, 0, 1, 0)]:
        sections += struct.pack(">10I", *section)
    front = (header + segments).ljust(4096, b"\0") + struct.pack(f">{len(words)}I", *words)
    return front.ljust(data, b"\0") + names + sections


def theirs(words, count):
    """What Unicorn holds after the first `count` words, or the address at which they overflow."""
    machine = unicorn.Uc(unicorn.UC_ARCH_MIPS, unicorn.UC_MODE_MIPS32 | unicorn.UC_MODE_BIG_ENDIAN)
    machine.mem_map(TEXT, 0x10000)
    machine.mem_map(MEMORY, 0x10000)
    machine.mem_write(TEXT, struct.pack(f">{len(words)}I", *words))
    last, ends = [TEXT], []

    def executed(machine, address, size, _):
        last[0] = address

    def interrupted(machine, number, _):
        ends.append((number, last[0]))
        machine.emu_stop()

    machine.hook_add(unicorn.UC_HOOK_CODE, executed)
    machine.hook_add(unicorn.UC_HOOK_INTR, interrupted)
    machine.emu_start(TEXT, TEXT + 4 * count)
    if ends:
        return ends[0]
    memory = struct.unpack(f">{MEMORY_WORDS // 4}I", machine.mem_read(MEMORY, MEMORY_WORDS))
    registers = [machine.reg_read(mips_const.UC_MIPS_REG_0 + r) & 0xFFFFFFFF for r in range(32)]
    halves = [machine.reg_read(r) & 0xFFFFFFFF for r in (mips_const.UC_MIPS_REG_HI, mips_const.UC_MIPS_REG_LO)]
    return [*memory, *registers, *halves]


def ours():
    said = subprocess.run([PROGRAM, "run", "a.img", "in", "100000"], capture_output=True, text=True)
    lines = said.stdout.split("\n")
    if lines[-2:] == ["exit 0", ""]:
        return [int(line) % 2**32 for line in lines[:-2]]
    return said.stdout.strip()


def compare(count, seed):
    draw, wrong, overflowed = random.Random(seed), 0, 0
    with open("in", "w"):
        pass
    for number in range(count):
        drawn = Drawn(draw, number % 2 == 1)
        for _ in range(draw.randrange(5, 40)):
            drawn.part()
        words = drawn.words + printing()
        with open("a.img", "wb") as file:
            file.write(image(words))
        one, other = ours(), theirs(words, len(drawn.words))
        if isinstance(other, tuple) and other[0] == OVERFLOW:
            overflowed += 1
            other = f"exception Ov at 0x{other[1]:08x}"
        if one != other:
            wrong += 1
            print(f"image {number} of seed {seed}: {one} here, {other} there")
    print(f"{count} images, {overflowed} of them end with an overflow; {wrong} differ")
    return wrong > 0


if __name__ == "__main__":
    main(compare, "" if unicorn else "unicorn is not installed (Debian: python3-unicorn, for /usr/bin/python3)")

"""An image as pyelftools reads it and capstone disassembles it, with the lists as `hardcc list` prints them."""
import capstone
from capstone import mips_const
from elftools.common.exceptions import ELFError
from elftools.elf.elffile import ELFFile

from view import tool

BRANCHES = {"beq", "bne", "beqz", "bnez", "b"}
JUMPS = {"j", "jal", "jr"}
# Words that write no register.
SILENT = BRANCHES | {"j", "jr", "sw", "syscall", "break", "mult", "multu", "div", "divu", "nop"}
NAMES = {name: number for number, name in enumerate("zero at v0 v1 a0 a1 a2 a3 t0 t1 t2 t3 t4 t5 t6 t7 s0 s1 s2 s3 s4 s5 s6 s7 "
                                                    "t8 t9 k0 k1 gp sp fp ra".split())}
MASTER, SHADOW, SIGNATURE, NUMBER, NONE = "master", "shadow", "signature", "number", "none"


def role(register):
    """The stream of a register, as docs/HARDENING.md, part 1, has it."""
    if 4 <= register <= 13 or register in (29, 31):
        return MASTER
    if 14 <= register <= 23 or register in (25, 30):
        return SHADOW
    return {1: SIGNATURE, 24: SIGNATURE, 28: SIGNATURE, 2: NUMBER}.get(register, NONE)


class Word:
    """One word of the text: its address, its bits, its disassembly, and what it reads and writes."""

    def __init__(self, address, bits, instruction):
        self.address, self.bits = address, bits
        self.name = instruction.mnemonic if instruction else ".word"
        self.operands = list(instruction.operands) if instruction else []
        self.registers = [NAMES[instruction.reg_name(o.reg)] for o in self.operands if o.type == mips_const.MIPS_OP_REG] if instruction else []
        self.base = next((NAMES[instruction.reg_name(o.mem.base)] for o in self.operands if o.type == mips_const.MIPS_OP_MEM), None) if instruction else None
        self.text = numbered(instruction) if instruction else f".word 0x{bits:08x}"

    @property
    def immediate(self):
        """The last constant operand, or None: of a branch or a jump its target."""
        found = [o.imm for o in self.operands if o.type == mips_const.MIPS_OP_IMM]
        return found[-1] if found else None

    @property
    def target(self):
        """Where a branch or a direct jump leads, or None."""
        if self.name in BRANCHES or self.name in ("j", "jal"):
            return self.immediate & 0xFFFFFFFF
        return None

    @property
    def written(self):
        """The register that the word writes, or None; a service may write $2."""
        if self.name == "jal":
            return 31
        if self.name in SILENT or not self.registers:
            return None
        return self.registers[0] or None

    @property
    def read(self):
        """The registers that the word reads, without those of a service."""
        if self.name in BRANCHES or self.name in ("sw", "jr", "mult", "multu", "div", "divu"):
            named = self.registers
        else:
            named = self.registers[1:]
        return {r for r in [*named, *([self.base] if self.base is not None else [])] if r}

    @property
    def code(self):
        """The number of a break, or None."""
        return self.bits >> 6 & 0xFFFFF if self.name == "break" else None


def numbered(instruction):
    """The disassembly with registers as numbers, as hardcc prints them."""
    if instruction.mnemonic == "break":
        return f"break {int.from_bytes(instruction.bytes, 'big') >> 6 & 0xFFFFF}"
    parts = []
    for piece in instruction.op_str.replace("$", " $").split():
        name = piece.strip(",()")
        number = f"${NAMES[name[1:]]}" if name.startswith("$") and name[1:] in NAMES else name
        parts.append(piece.replace(name, number) if name else piece)
    joined = "".join(part if part.startswith(")") else part + " " for part in parts).strip()
    joined = joined.replace("( ", "(").replace(" )", ")").replace(" ,", ",")
    return f"{instruction.mnemonic} {joined}".strip()


class Image:
    """The parts of an image file, and its windows and aliases as hardcc lists them."""

    def __init__(self, path):
        self.path = path
        self.lines = tool.lines("list", path)
        with open(path, "rb") as file:
            try:
                self.read(ELFFile(file))
            except (ELFError, AttributeError, KeyError) as error:
                raise tool.Failure(f"{path}: {error}") from None
        self.windows, self.aliases = {}, []
        for line in self.lines:
            words = line.split()
            if words[0] == "window":
                self.windows.setdefault(int(words[1], 16), []).append(int(words[2][1:]))
            elif words[0] == "alias":
                self.aliases.append((int(words[1], 16), int(words[2], 16)))

    def read(self, file):
        """Takes the text, the memory and the entry out of the ELF file."""
        text, data = file.get_section_by_name(".text"), file.get_section_by_name(".data")
        self.entry, self.start, self.bytes = file["e_entry"], text["sh_addr"], text.data()
        self.memory_start, self.initial = data["sh_addr"], data.data()
        self.memory_size = max(segment["p_memsz"] for segment in file.iter_segments() if segment["p_vaddr"] == data["sh_addr"])
        self.words = disassembled(self.bytes, self.start)
        self.at = {word.address: word for word in self.words}

    @property
    def window_count(self):
        """How many pairs of an address and a register hardcc lists."""
        return sum(map(len, self.windows.values()))


def disassembled(data, start):
    """The words of a text. What capstone doesn't know stays a word."""
    machine = capstone.Cs(capstone.CS_ARCH_MIPS, capstone.CS_MODE_MIPS32 | capstone.CS_MODE_BIG_ENDIAN)
    machine.detail = True
    known, offset = {}, 0
    while offset < len(data):
        for instruction in machine.disasm(data[offset:], start + offset):
            known[instruction.address] = Word(instruction.address, int.from_bytes(instruction.bytes, "big"), instruction)
            offset = instruction.address - start + 4
        if offset < len(data):
            known[start + offset] = Word(start + offset, int.from_bytes(data[offset:offset + 4], "big"), None)
            offset += 4
    return [known[address] for address in sorted(known)]

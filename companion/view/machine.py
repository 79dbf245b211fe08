"""Runs of an image on Unicorn, step by step: a second simulator beside that of hardcc. Services are answered here, as docs/MACHINE.md,
part 4, has them; hazards are not looked for."""
import unicorn
from unicorn import mips_const

from view import tool

PUT, TAKE, EXIT = 1, 5, 17
TRAPS = {6, 7, 8, 9}
REPORTS = {1: "eddi", 2: "cfcss"}
PAGE = 0x1000
REGISTERS = [getattr(mips_const, f"UC_MIPS_REG_{number}") for number in range(32)]


def signed(word):
    """A word as a signed number."""
    return word - (word >> 31 << 32)


def inputs(path):
    """The numbers of a file of inputs, modulo 2^32. hardcc refuses what is none; here it fails too."""
    try:
        return [int(word) & 0xFFFFFFFF for word in tool.read_bytes(path).split()]
    except ValueError as error:
        raise tool.Failure(f"{path}: {error}") from None


class Run:
    """One run of an image. `seen` is called just before each step with the number of the step and its word."""

    def __init__(self, image, numbers, steps, seen):
        self.image, self.numbers, self.steps, self.seen = image, list(numbers), steps, seen
        self.step, self.outputs, self.end, self.taken = 0, [], None, 0
        self.machine = unicorn.Uc(unicorn.UC_ARCH_MIPS, unicorn.UC_MODE_MIPS32 | unicorn.UC_MODE_BIG_ENDIAN)
        self.place(image.start, image.bytes, len(image.bytes))
        self.place(image.memory_start, image.initial, image.memory_size)
        self.machine.hook_add(unicorn.UC_HOOK_CODE, self.before)

    def place(self, address, data, size):
        """Maps a part of the memory and fills it."""
        self.machine.mem_map(address, (size + PAGE - 1) // PAGE * PAGE)
        self.machine.mem_write(address, bytes(data))

    def register(self, number):
        """The word of a register."""
        return self.machine.reg_read(REGISTERS[number]) & 0xFFFFFFFF

    def before(self, machine, address, size, data):
        """What is done before each word: it is counted and shown, and a service, a break or the last step stops the machine."""
        word = self.image.at.get(address)
        if self.step >= self.steps:
            self.end = "going"
        if self.end or self.halted == address or word is None:
            machine.emu_stop()
            return
        self.seen(self.step, word)
        self.step += 1
        if word.name in ("syscall", "break"):
            self.halted = address
            machine.emu_stop()

    def go(self):
        """Runs up to the end, or up to the number of steps, and gives the end as hardcc prints it."""
        at = self.image.entry
        stop = self.image.start + len(self.image.bytes)
        while self.end is None:
            self.halted = None
            try:
                self.machine.emu_start(at, stop)
            except unicorn.UcError as error:
                self.end = f"stopped by Unicorn: {error}"
                break
            if self.halted is None:
                self.end = self.end or "stopped by Unicorn outside the text"
                break
            at = self.halted + 4
            self.answer(self.image.at[self.halted])
        return self.end

    def answer(self, word):
        """Does what a service or a break asks for."""
        if word.name == "break":
            code = word.code
            self.end = f"trap {code}" if code in TRAPS else f"reported {REPORTS.get(code, code)} at 0x{word.address:08x}"
        elif self.register(2) == PUT:
            self.outputs.append(signed(self.register(4)))
        elif self.register(2) == EXIT:
            self.end = f"exit {signed(self.register(4))}"
        elif self.register(2) != TAKE:
            self.end = f"exception Sys at 0x{word.address:08x}"
        elif self.taken == len(self.numbers):
            self.end = "starved"
        else:
            self.machine.reg_write(REGISTERS[2], self.numbers[self.taken])
            self.taken += 1

    def text(self):
        """What `hardcc run` prints of the same run."""
        return "".join(f"{word}\n" for word in self.outputs) + f"{self.end}\n"


def whole(image, path, seen, steps=tool.MOST_STEPS):
    """The run of an image on a file of inputs, compared with that of hardcc; where they differ it is a failure."""
    run = Run(image, inputs(path), steps, seen)
    run.go()
    wanted = "\n".join(tool.lines("run", image.path, path, steps)) + "\n"
    if run.text() != wanted:
        raise tool.Failure(f"Unicorn and hardcc differ: Unicorn ends with {run.end}, hardcc with {wanted.splitlines()[-1]}")
    return run

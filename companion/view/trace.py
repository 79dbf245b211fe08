"""trace: the steps of a run, each with what it writes, so that the step to be changed can be found."""
from view import names, structure, tool
from view import image as images

FIRST = "hardview trace: a help, which proves nothing; steps by Unicorn, outputs compared with those of hardcc run"
HEADER = "step address  word     disassembly               writes            function, and windows at this step"
# So many steps are shown where no last one is named.
SHOWN = 200


class Tracer:
    """Keeps the lines of the steps in a range. What a step writes is known when the next one begins."""

    def __init__(self, image, parts, titles, first, last):
        self.image, self.structure, self.titles, self.first, self.last = image, parts, titles, first, last
        self.lines, self.waiting, self.run = [], None, None

    def seen(self, step, word):
        """Takes a step, and finishes the one before."""
        self.finish()
        if self.first <= step < self.last:
            self.waiting = (step, word)

    def finish(self):
        """Writes the line of the step that waits."""
        if self.waiting is None:
            return
        step, word = self.waiting
        written = 2 if word.name == "syscall" and self.run.register(2) != 1 else word.written
        value = f"${written} = {images_word(self.run.register(written))}" if written else ""
        windows = " ".join(f"${register}" for register in self.image.windows.get(word.address, []))
        function = names.shown(self.titles, self.structure.function_of(word.address))
        line = f"{step:<4} {word.address:08x} {word.bits:08x} {word.text:<25} {value:<17} {function}" + (f", window {windows}" if windows else "")
        self.lines.append(line)
        self.waiting = None


def images_word(word):
    """A word, decimal where it is small and hexadecimal else."""
    number = word - (word >> 31 << 32)
    return str(number) if abs(number) < 100000 else f"0x{word:08x}"


def arguments(parser):
    """The words of the command."""
    parser.add_argument("image", metavar="IMG")
    parser.add_argument("input", metavar="INPUT")
    parser.add_argument("--from", dest="first", type=int, default=0, metavar="N", help="the first step shown, from 0")
    parser.add_argument("--to", dest="last", type=int, metavar="M", help=f"the first step not shown; else {SHOWN} are")
    parser.add_argument("--source", metavar="SRC", help="the source, to guess the names of functions")
    parser.add_argument("--function", metavar="NAME", help="show only the steps in this function")


def run(asked):
    """Prints the steps."""
    from view import machine
    image = images.Image(asked.image)
    parts = structure.Structure(image)
    titles, remark = names.of_image(parts, asked.source)
    last = asked.last if asked.last is not None else asked.first + SHOWN
    tracer = Tracer(image, parts, titles, asked.first, last)
    tracer.run = machine.Run(image, machine.inputs(asked.input), min(max(last, 0), tool.MOST_STEPS), tracer.seen)
    tracer.run.go()
    tracer.finish()
    wanted = tool.lines("run", asked.image, asked.input, tracer.run.steps)
    if tracer.run.text().splitlines() != wanted:
        raise tool.Failure(f"Unicorn and hardcc differ: Unicorn ends with {tracer.run.end}, hardcc with {wanted[-1]}")
    shown = [line for line in tracer.lines if not asked.function or f" {asked.function}?" in line]
    print("\n".join([FIRST, remark, HEADER, *shown, f"after step {tracer.run.step - 1}: {tracer.run.end}"]))
    return 0

"""Single flips, replayed by `hardcc fault`: those that a campaign counted as silent, and samples for the map of a report."""
import os
import random
import tempfile

from view import image as images
from view import tool

# So many silent flips are looked for.
MOST_SHOWN = 20
# The map of a report has so many columns.
COLUMNS = 24
CLASSES = {"master": [r for r in range(32) if images.role(r) == images.MASTER], "shadow": [r for r in range(32) if images.role(r) == images.SHADOW],
           "signatures": [r for r in range(32) if images.role(r) == images.SIGNATURE], "$2": [2], "unused": [3, 26, 27]}


def bit_of(step, register):
    """The bit that a campaign inverts, as docs/HARDENING.md, part 7, has it."""
    return (step + register) % 32


def outcome(asked, steps, step, register, folder, wanted):
    """How a flip ends, by the outcomes of docs/HARDENING.md, part 7, windows aside."""
    path = os.path.join(folder, "fault")
    tool.write_text(path, f"flip {step} {register} {bit_of(step, register)}\n")
    told = tool.lines("fault", asked.image, asked.input, steps, path)
    if told == wanted:
        return "same"
    begins = told[:-1] == wanted[:-1][:len(told) - 1]
    if begins and told[-1].startswith(("reported", "exception")):
        return told[-1].split()[0]
    return "silent"


def found(asked, steps, parts):
    """The silent flips in these ranges, as pairs of a step and a register; at most so many."""
    if not parts:
        return []
    wanted, listed, flips = tool.lines("run", asked.image, asked.input, steps), images.Image(asked.image), []
    addresses = addresses_of(asked, listed, steps)
    with tempfile.TemporaryDirectory() as folder:
        for step in (step for part in parts for step in range(*part)):
            if int(tool.lines("campaign", asked.image, asked.input, steps, step, step + 1)[-1].split()[1]) == 0:
                continue
            for register in range(1, 32):
                if register not in listed.windows.get(addresses.get(step), []) and outcome(asked, steps, step, register, folder, wanted) == "silent":
                    flips.append((step, register))
                    if len(flips) == MOST_SHOWN:
                        return flips
    return flips


def addresses_of(asked, image, steps):
    """The address at each step of the run without a fault; empty where Unicorn isn't there."""
    try:
        from view import machine
    except ImportError:
        return {}
    found = {}
    machine.Run(image, machine.inputs(asked.input), steps, lambda step, word: found.__setitem__(step, word.address)).go()
    return found


def lines(asked, steps, flips):
    """The commands that replay silent flips."""
    for step, register in flips:
        yield (f"silent: printf 'flip {step} {register} {bit_of(step, register)}' > fault && "
               f"hardcc fault {asked.image} {asked.input} {steps} fault")
    if len(flips) == MOST_SHOWN:
        yield "silent: further ones were not looked for"


def columns(first, last):
    """The steps cut into the columns of the map."""
    count = max(1, min(COLUMNS, last - first))
    edges = [first + (last - first) * k // count for k in range(count + 1)]
    return list(zip(edges, edges[1:]))


def sampled(asked, steps, times):
    """The map of a report: of each class of registers and each column the outcomes of some flips, drawn always the same."""
    draw, cells = random.Random(1), {}
    if times == 0 or asked.first >= asked.last:
        return cells
    listed, wanted = images.Image(asked.image), tool.lines("run", asked.image, asked.input, steps)
    addresses = addresses_of(asked, listed, steps)
    with tempfile.TemporaryDirectory() as folder:
        for name, registers in CLASSES.items():
            for start, end in columns(asked.first, asked.last):
                flips = [(draw.randrange(start, end), draw.choice(registers)) for _ in range(times)]
                cells[name, start] = ["windowed" if register in listed.windows.get(addresses.get(step), [])
                                      else outcome(asked, steps, step, register, folder, wanted) for step, register in flips]
    return cells

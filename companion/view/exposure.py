"""exposure: how much of a run lies in windows. A pair is a step and a register from 1 to 31; it is listed where hardcc lists the address of
the step with the register."""
import csv
import html
from collections import Counter

from view import image as images
from view import names, structure, tool

FIRST = "hardview exposure: a help, which proves nothing; windows are those that hardcc lists, steps are counted on Unicorn"
REGISTERS = 31


class Exposure:
    """The counts of one run."""

    def __init__(self, image, path, source=None):
        from view import machine
        self.image, self.structure = image, structure.Structure(image)
        self.names, self.remark = names.of_image(self.structure, source)
        self.executed = Counter()
        self.run = machine.whole(image, path, lambda step, word: self.executed.update((word.address,)))
        self.steps = self.run.step
        self.listed, self.ran = Counter(), Counter()
        for address, times in self.executed.items():
            function = self.structure.function_of(address)
            self.ran[function] += times
            for register in image.windows.get(address, []):
                self.listed[function, self.structure.uses[address, register]] += times

    @property
    def pairs(self):
        """All pairs of a step and a register."""
        return REGISTERS * self.steps

    @property
    def exposed(self):
        """The pairs that are listed."""
        return sum(self.listed.values())

    def of(self, function=None, use=None):
        """The listed pairs of a function, of a use, or of both."""
        return sum(times for (one, other), times in self.listed.items() if function in (None, one) and use in (None, other))

    def rows(self):
        """Of each function that ran: its name, its steps, the listed pairs by use, all of them, and their part in percent."""
        for function in sorted(self.ran, key=lambda one: -self.of(one)):
            own = [self.of(function, use) for use in structure.USES]
            yield names.shown(self.names, function), self.ran[function], own, sum(own), percent(sum(own), REGISTERS * self.ran[function])


def percent(part, whole):
    """A part in percent, 0 of nothing."""
    return 100 * part / whole if whole else 0.0


def text(found, path):
    """The counts as text."""
    lines = [FIRST, found.remark, f"{found.image.path} on {path}: {found.steps} steps, {found.run.end}",
             f"{found.exposed} of {found.pairs} pairs of a step and a register are listed: {percent(found.exposed, found.pairs):.3f} %", "",
             f"{'function':<20}{'steps':>9}" + "".join(f"{use:>14}" for use in structure.USES) + f"{'listed':>9}{'%':>8}"]
    for name, steps, own, listed, part in found.rows():
        lines.append(f"{name[:19]:<20}{steps:>9}" + "".join(f"{count:>14}" for count in own) + f"{listed:>9}{part:>8.3f}")
    lines.append(f"{'all':<20}{found.steps:>9}" + "".join(f"{found.of(use=use):>14}" for use in structure.USES)
                 + f"{found.exposed:>9}{percent(found.exposed, found.pairs):>8.3f}")
    return "\n".join(lines)


def write_table(found, path):
    """Writes the rows as comma-separated values."""
    try:
        with open(path, "w", newline="", encoding="utf-8") as file:
            out = csv.writer(file)
            out.writerow(["function", "steps", *structure.USES, "listed", "percent"])
            for name, steps, own, listed, part in found.rows():
                out.writerow([name, steps, *own, listed, f"{part:.4f}"])
    except OSError as error:
        raise tool.Failure(f"{path}: {error.strerror}") from None


def page(found, path):
    """The counts as a page of HTML with a bar for each function."""
    rows = list(found.rows())
    most = max((part for *_, part in rows), default=0) or 1
    lines = ['<!DOCTYPE html>', '<html lang="en"><head><meta charset="utf-8"><title>exposure</title>',
             "<style>body{font:14px sans-serif;margin:2em}td{padding:2px 10px}.bar{background:#d60;height:14px}td.n{text-align:right}</style></head><body>",
             f"<p>{FIRST}</p><h1>{html.escape(found.image.path)} on {html.escape(str(path))}</h1>",
             f"<p>{found.exposed} of {found.pairs} pairs of a step and a register are listed: <b>{percent(found.exposed, found.pairs):.3f} %</b>. "
             f"{found.steps} steps, {found.run.end}. {found.remark}</p>",
             "<table><tr><th>function</th><th>steps</th><th>listed</th><th>%</th><th></th></tr>"]
    for name, steps, _, listed, part in rows:
        lines.append(f'<tr><td>{html.escape(name)}</td><td class="n">{steps}</td><td class="n">{listed}</td><td class="n">{part:.3f}</td>'
                     f'<td><div class="bar" style="width:{300 * part / most:.0f}px"></div></td></tr>')
    lines.append("</table><table><tr><th>use</th><th>listed</th></tr>")
    lines += [f'<tr><td>{use}</td><td class="n">{found.of(use=use)}</td></tr>' for use in structure.USES]
    return "\n".join([*lines, "</table></body></html>", ""])


def arguments(parser):
    """The words of the command."""
    parser.add_argument("image", metavar="IMG")
    parser.add_argument("input", metavar="INPUT")
    parser.add_argument("--source", metavar="SRC", help="the source, to guess the names of functions")
    parser.add_argument("--csv", metavar="OUT", help="write the rows as comma-separated values too")
    parser.add_argument("--html", metavar="OUT", help="write a page of HTML too")


def run(asked):
    """Prints the counts, and writes them where it is asked."""
    found = Exposure(images.Image(asked.image), asked.input, asked.source)
    print(text(found, asked.input))
    if asked.csv:
        write_table(found, asked.csv)
    if asked.html:
        tool.write_text(asked.html, page(found, asked.input))
    return 0

"""listing: an image word by word, as text or as a page of HTML."""
import html

from view import image as images
from view import names, structure, tool
from view.image import MASTER, NONE, NUMBER, SHADOW, SIGNATURE

FIRST = "hardview listing: a help, which proves nothing; windows and aliases are those that hardcc lists"
LEGEND = "columns: address, word, master stream | shadow stream | what stands once; its part; windows with what they wait for"
SHORT = {structure.STORE: "store", structure.OTHER: "use"}
STYLE = """body{font:13px monospace;margin:1em}td{padding:0 10px;white-space:pre}table{border-collapse:collapse}
.window{background:#fd8}.head{color:#888}.check{color:#070}.block td{border-top:1px solid #999;padding-top:4px;color:#444}
.function td{border-top:3px solid #000;font-weight:bold;padding-top:8px}"""


def column(word):
    """In which column a word stands: 0 for the master stream, 1 for the shadow stream, 2 for what stands once."""
    used = {images.role(register) for register in word.read | {word.written or 0} if register} - {NUMBER, NONE}
    if SIGNATURE in used or word.name in ("j", "jal", "jr", "syscall", "break", "nop") or {MASTER, SHADOW} <= used:
        return 2
    if word.name in structure.CONDITIONAL:
        return 2
    return 0 if MASTER in used else 1 if SHADOW in used else 2


class Listing:
    """An image with its structure and the names of its functions."""

    def __init__(self, path, source):
        self.image = images.Image(path)
        self.structure = structure.Structure(self.image)
        self.names, self.remark = names.of_image(self.structure, source)
        self.lines = {}
        if self.remark == names.GUESSED:
            self.lines = {name: line for name, (line, _) in names.of_source(source).items()}

    def summary(self):
        """How much there is of everything."""
        parts = self.structure
        return (f"{self.image.path}: {len(self.image.words)} words, {len(parts.functions)} functions, {len(parts.starts)} blocks, "
                f"{len(parts.checks)} checks, {self.image.window_count} windows, {len(self.image.aliases)} aliases")

    def title(self, function):
        """The name of a function, with the line of the source where one was guessed."""
        line = self.lines.get(self.names.get(function))
        return names.shown(self.names, function) + (f" line {line}" if line else "")

    def remarks(self, word):
        """What is to be said of a word: its part, and the windows with the use that each waits for."""
        held = [f"window ${register} until {self.structure.uses[word.address, register]}" for register in self.image.windows.get(word.address, [])]
        return ", ".join(filter(None, [self.structure.kind(word.address), *held]))

    def short_remarks(self, word):
        """The same in few letters: `$29 store` is a window of $29 until the address of a store is used."""
        uses = [(register, self.structure.uses[word.address, register]) for register in self.image.windows.get(word.address, [])]
        held = " ".join(f"${register} {SHORT.get(use, use)}" for register, use in uses)
        return "; ".join(filter(None, [self.structure.kind(word.address), held]))

    def block_line(self, start):
        """What a block begins with."""
        return f"block {self.structure.block_of(start)}" + ("" if start in self.structure.heads else " without a head")


def text_lines(listing):
    """The listing as lines of at most 120 columns."""
    yield from (FIRST, listing.summary(), listing.remark, LEGEND)
    starts, functions = set(listing.structure.starts), set(listing.structure.functions)
    for word in listing.image.words:
        if word.address in functions:
            yield from ("", f"{listing.title(word.address)}")
        if word.address in starts:
            yield f"  {listing.block_line(word.address)}"
            for other in listing.structure.aliases.get(word.address, []):
                yield f"    alias: a branch from here to 0x{other:08x}, block {listing.structure.block_of(other)}, is not seen"
        cells = ["", "", ""]
        cells[column(word)] = word.text
        line = f"{word.address:08x} {word.bits:08x} {cells[0]:<22}|{cells[1]:<22}|{cells[2]:<23}{listing.short_remarks(word)}".rstrip()
        yield line if len(line) <= 120 else line[:117] + "..."


def link(text, target):
    """A text of HTML that leads to an address."""
    return f'<a href="#a{target:08x}">{html.escape(text)}</a>'


def word_row(listing, word):
    """A row of the table of HTML."""
    cells = ["", "", ""]
    cells[column(word)] = link(word.text, word.target) if word.target in listing.image.at else html.escape(word.text)
    kind = "window" if word.address in listing.image.windows else listing.structure.kind(word.address)
    columns = [f"{word.address:08x}", f"{word.bits:08x}", *cells, html.escape(listing.remarks(word))]
    return f'<tr id="a{word.address:08x}"{f" class={kind}" if kind else ""}>' + "".join(f"<td>{cell}</td>" for cell in columns) + "</tr>"


def block_row(listing, start):
    """A row that begins a block, with a link to each alias."""
    others = listing.structure.aliases.get(start, [])
    away = " a branch from here is not seen at " + ", ".join(link(f"0x{other:08x}", other) for other in others) if others else ""
    return f'<tr class="block"><td colspan="6">{listing.block_line(start)}{away}</td></tr>'


def page(listing):
    """The listing as a page of HTML."""
    starts, functions = set(listing.structure.starts), set(listing.structure.functions)
    contents = " ".join(link(listing.title(function), function) for function in listing.structure.functions)
    rows = []
    for word in listing.image.words:
        if word.address in functions:
            rows.append(f'<tr class="function"><td colspan="6">{html.escape(listing.title(word.address))}</td></tr>')
        if word.address in starts:
            rows.append(block_row(listing, word.address))
        rows.append(word_row(listing, word))
    head = "".join(f"<th>{name}</th>" for name in ("address", "word", "master", "shadow", "once", "for"))
    return "\n".join(['<!DOCTYPE html>', '<html lang="en"><head><meta charset="utf-8">', f"<title>{html.escape(listing.image.path)}</title>",
                      f"<style>{STYLE}</style></head><body>", f"<p>{FIRST}</p><h1>{html.escape(listing.summary())}</h1><p>{listing.remark}</p>",
                      f"<p>{contents}</p><table><tr>{head}</tr>", *rows, "</table></body></html>", ""])


def arguments(parser):
    """The words of the command."""
    parser.add_argument("image", metavar="IMG")
    parser.add_argument("--source", metavar="SRC", help="the source, to guess the names of functions")
    parser.add_argument("--html", metavar="OUT", help="write a page of HTML in place of the text")


def run(asked):
    """Prints the listing, or writes the page."""
    listing = Listing(asked.image, asked.source)
    if asked.html:
        tool.write_text(asked.html, page(listing))
        print(FIRST)
        print(f"{listing.summary()}; written to {asked.html}")
        return 0
    print("\n".join(text_lines(listing)))
    return 0

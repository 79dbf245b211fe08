"""explain: the line that hardcc prints of a refused source, as file:line:column with the line, a caret and a hint."""
import os
import re
import stat
import sys
import tempfile

from view import hints, refusals, tool

LINE = re.compile(r"source refused: (\w+)(?: at (\d+))?$")
MARKER = re.compile(r'[ \t]*#[ \t]*(?:line[ \t]+)?(\d+)(?:[ \t]+"([^"]*)")?')
FIRST = "hardview explain: a help, which proves nothing; hardcc decides what is refused"


class Place:
    """Where a byte of a source stands: its file and line by the line markers before it, and its column, counted from 1."""

    def __init__(self, path, data, at):
        self.at = min(at, len(data))
        start = data.rfind(b"\n", 0, self.at) + 1
        end = data.find(b"\n", self.at)
        self.shown = data[start:end if end >= 0 else len(data)].decode("utf-8", "replace").rstrip("\r")
        self.before = data[start:self.at].decode("utf-8", "replace")
        self.path, self.line = marked(path, data[:start].decode("utf-8", "replace"))

    @property
    def name(self):
        """The place as compilers write it, so that editors jump to it."""
        return f"{self.path}:{self.line}:{len(self.before) + 1}"

    def caret(self):
        """A line with a caret under the place; tabs stay tabs."""
        return re.sub(r"[^\t]", " ", self.before) + "^"


def marked(path, before):
    """The file and the number of the line that begins after this text, by the last line marker in it."""
    line = 1
    for text in before.split("\n")[:-1]:
        found = MARKER.match(text)
        if found:
            line, path = int(found.group(1)), found.group(2) or path
        else:
            line += 1
    return path, line


def explained(path, data, line):
    """A printed line of hardcc as a list of lines; one that is no refusal of a source stays as it is."""
    found = LINE.match(line)
    if found is None or found.group(1) not in refusals.MEANINGS:
        return [line]
    refusal, at = found.group(1), int(found.group(2) or 0)
    meaning = refusals.MEANINGS[refusal]
    text, before = data.decode("utf-8", "replace"), data[:at].decode("utf-8", "replace")
    hint = hints.hint(refusal, text, len(before)) or refusals.GENERAL_HINTS.get(refusal)
    if refusal in refusals.OF_THE_WHOLE:
        shown = [f"{path}:1:1: error: {meaning} [{refusal}]"]
    else:
        place = Place(path, data, at)
        shown = [f"{place.name}: error: {meaning} [{refusal} at {at}]", "    " + place.shown, "    " + place.caret()]
    return shown + ([f"    hint: {hint}"] if hint else [])


def warnings(path, data):
    """Lines on what an accepted source does otherwise than a reader of ISO C 2011 may think; none where pycparser isn't there."""
    try:
        from view import order
    except ImportError:
        return []
    lines = []
    for at, what in order.findings(data.decode("utf-8", "replace")):
        place = Place(path, data, at)
        lines += [f"{place.name}: warning: {what}", "    " + place.shown, "    " + place.caret()]
    return lines


def is_pipe(stream):
    """Whether a stream is a pipe or a file, and not a terminal or nothing."""
    try:
        mode = os.fstat(stream.fileno()).st_mode
    except (OSError, ValueError):
        return False
    return stat.S_ISFIFO(mode) or stat.S_ISREG(mode)


def compiled(path, split):
    """What hardcc prints of this source, which it compiles into a folder that is thrown away."""
    with tempfile.TemporaryDirectory() as folder:
        return tool.call("compile-split" if split else "compile", path, os.path.join(folder, "image"))[1].splitlines()


def arguments(parser):
    """The words of the command."""
    parser.add_argument("source", metavar="SRC", help="the source that hardcc was given")
    parser.add_argument("--run", action="store_true", help="compile SRC here, and read nothing from a pipe")


def run(asked):
    """Explains the lines of the pipe, or those that hardcc prints now. The status is 3 where the source is refused."""
    data = tool.read_bytes(asked.source)
    piped = sys.stdin.read().splitlines() if not asked.run and is_pipe(sys.stdin) else []
    said = piped or compiled(asked.source, False)
    print(FIRST)
    for line in said:
        print("\n".join(explained(asked.source, data, line)))
    if any(LINE.match(line) for line in said):
        return 3
    for line in warnings(asked.source, data):
        print(line)
    return 0

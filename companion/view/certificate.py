"""certificate: one page for a review of an image: what it was made of, what hardcc says of it, and what is proved and what not."""
import datetime
import hashlib
import os
import shutil
import subprocess
import tempfile

from view import image as images
from view import tool

FIRST = "hardview certificate: a help, which proves nothing; it puts together what hardcc printed"
COMMANDS = ["compile", "compile-split"]
PROVED = """\
Proved of every image that hardcc compiles (docs/THEOREM.md; `done` of `run_tool`), not by this page:
 1. The image without a fault prints and ends as the C program means (docs/LANGUAGE.md).
 2. With one word put in a register, HI, LO or memory just before a step, outside the listed windows, the run is the same, or it
    reports or takes an exception after a beginning of the same output. So too with one bit of a register inverted.
 3. With one branch led to the start of a block that does not follow, that block reports before further output, aliases aside.
 4. The lists of windows and aliases are exact.
 5. `audit yes`: the same as 2 for this image and this input, established anew from its words, whoever made it.
Not covered: faults inside a window, branches along an alias or to the other arm or into the middle of a block, two faults in one run,
 faults of the program counter otherwise, faults in instruction words, time. Trusted: the toolchain, the C library, the operating
 system, and that the processor is the machine of docs/MACHINE.md.
Only counted, and no proof: exposure and campaign, below. That the hardcc named above is the proved one is for the reviewer to see:
 it is crates/hardcc/out/hardcc after `rt ci` has passed on the commit named above."""


def digest(path):
    """The SHA-256 digest of a file."""
    return hashlib.sha256(tool.read_bytes(path)).hexdigest()


def said(*words):
    """The first line that another program prints, or `not known`."""
    if shutil.which(words[0]) is None:
        return "not known"
    done = subprocess.run(words, capture_output=True, text=True)
    return done.stdout.splitlines()[0] if done.returncode == 0 and done.stdout else "not known"


def commit():
    """The commit that this companion stands in."""
    here = os.path.dirname(os.path.abspath(__file__))
    found = said("git", "-C", here, "rev-parse", "HEAD")
    changed = found != "not known" and said("git", "-C", here, "status", "--porcelain") != "not known"
    return found + (" with changes" if changed else "")


def made_by(source, image):
    """Which command makes exactly this image of this source, with the line that it prints."""
    with tempfile.TemporaryDirectory() as folder:
        for command in COMMANDS:
            path = os.path.join(folder, command)
            status, text = tool.call(command, source, path)
            if status != 0:
                return f"NOT made of this source, which {command} refuses: {text.strip()}"
            if digest(path) == digest(image):
                return f"{command}: {text.strip()}; made anew now, the image is the same byte by byte"
    return "NOT made of this source by any command of this hardcc"


def of_input(image, path, source, campaign):
    """What is said of one input."""
    status, text = tool.call("audit", image.path, path, tool.MOST_STEPS)
    lines = [f"Input {path}", f"  SHA-256 {digest(path)}", "  " + ", ".join(text.splitlines() or ["nothing printed"]) + f" (status {status})"]
    try:
        from view import exposure
        found = exposure.Exposure(image, path, source)
        lines.append(f"  exposure {found.exposed} of {found.pairs} pairs of a step and a register, "
                     f"{exposure.percent(found.exposed, found.pairs):.3f} %; {found.run.end}")
    except ImportError:
        lines.append("  exposure not counted: Unicorn is not installed")
    lines.append("  campaign " + (counted(image.path, path) if campaign and status == 0 else "not made"))
    return lines


def counted(image, path):
    """The counts of a campaign over the whole run, one range after the other."""
    from view import campaign
    length = campaign.length_of(image, path)
    steps = campaign.room(length)
    total = [0] * len(campaign.OUTCOMES)
    for first, last in campaign.ranges(0, length, steps, 1):
        printed = tool.lines("campaign", image, path, steps, first, last)
        total = [a + int(line.split()[1]) for a, line in zip(total, printed)]
    return ", ".join(f"{name} {number}" for name, number in zip(campaign.OUTCOMES, total))


def arguments(parser):
    """The words of the command."""
    parser.add_argument("source", metavar="SRC")
    parser.add_argument("image", metavar="IMG")
    parser.add_argument("inputs", metavar="INPUT", nargs="+")
    parser.add_argument("--campaign", action="store_true", help="make a campaign of each input too; see hardview campaign for long ones")


def run(asked):
    """Prints the page. The status is 1 where an audit does not pass or the image is not made of the source."""
    image = images.Image(asked.image)
    origin = made_by(asked.source, asked.image)
    lines = [FIRST, "", f"Made on {datetime.date.today().isoformat()}",
             f"Source {asked.source}", f"  SHA-256 {digest(asked.source)}", f"Image {asked.image}", f"  SHA-256 {digest(asked.image)}",
             f"  {len(image.words)} words, {image.window_count} windows, {len(image.aliases)} aliases", f"  {origin}",
             f"hardcc SHA-256 {digest(tool.program())}", f"  commit {commit()}", f"  toolchain {said('rt', 'version')}", "", PROVED, ""]
    for path in asked.inputs:
        lines += of_input(image, path, asked.source, asked.campaign)
    print("\n".join(lines))
    return 1 if origin.startswith("NOT") or any("audit no" in line for line in lines) else 0

"""campaign: faults at each step of a run. The steps are cut into ranges, `hardcc campaign` tries each of them under GNU parallel, and the
counts are added. What was done stays in a folder, so that a campaign that was stopped goes on where it was."""
import hashlib
import os
import shlex
import shutil
import subprocess
import sys

from view import report, silent, tool

FIRST = "hardview campaign: a help, which proves nothing; hardcc tries the faults, GNU parallel runs it"
OUTCOMES = ["same", "reported", "exception", "windowed", "silent"]
REGISTERS = 31
# hardcc takes no campaign whose steps, registers and steps of a run come to more.
MOST_TRIED = 200_000_000
# So many ranges are made for each job, where they may be that large.
RANGES_A_JOB = 8


def length_of(image, path):
    """The number of steps of the run without a fault, as the audit has it."""
    status, text = tool.call("audit", image, path, tool.MOST_STEPS)
    lines = text.splitlines()
    if status != 0:
        raise tool.Failure(f"{lines[0] if lines else 'hardcc audit failed'}: name the number of steps by --steps to go on")
    return int(lines[1].split()[1])


def room(length):
    """How many steps each run may take: more than the run without a fault, so that a longer one comes to its end."""
    return min(tool.MOST_STEPS, length + max(1000, length // 4))


def ranges(first, last, steps, jobs):
    """The steps from the first up to the last, cut into ranges that hardcc takes."""
    if REGISTERS * steps > MOST_TRIED:
        raise tool.Failure(f"a run of {steps} steps is too long for hardcc campaign: at most {MOST_TRIED // REGISTERS}")
    width = max(1, min(MOST_TRIED // (REGISTERS * steps), -(-(last - first) // (jobs * RANGES_A_JOB))))
    return [(start, min(start + width, last)) for start in range(first, last, width)]


def plan_of(asked, steps):
    """What a campaign is of, as a text: digests of the files, and the numbers."""
    digests = [hashlib.sha256(tool.read_bytes(path)).hexdigest() for path in (asked.image, asked.input)]
    return "\n".join([*digests, f"steps {steps}", f"from {asked.first} to {asked.last} jobs {asked.jobs}", ""])


def prepare(folder, plan):
    """Makes the folder, or finds that it is of the same campaign."""
    os.makedirs(folder, exist_ok=True)
    path = os.path.join(folder, "plan")
    if os.path.exists(path):
        if tool.read_bytes(path).decode() != plan:
            raise tool.Failure(f"{folder} is of another campaign: remove it, or name another by --folder")
    else:
        tool.write_text(path, plan)


def parallel(asked, folder, steps, parts):
    """Runs hardcc on each range under GNU parallel."""
    found = shutil.which("parallel")
    if found is None:
        raise tool.Failure("GNU parallel is not installed (Debian: parallel)")
    words = [found, "--will-cite", "--jobs", str(asked.jobs), "--joblog", os.path.join(folder, "joblog"), "--resume-failed", "--colsep", " ",
             "--results", os.path.join(folder, "results")]
    words += ["--bar"] if sys.stderr.isatty() else []
    for login in asked.sshlogin or []:
        words += ["--sshlogin", login]
    command = [shlex.quote(word) for word in (tool.program(), "campaign", os.path.abspath(asked.image), os.path.abspath(asked.input), str(steps))]
    done = subprocess.run([*words, " ".join([*command, "{1}", "{2}"])], input="".join(f"{a} {b}\n" for a, b in parts), text=True, stdout=subprocess.DEVNULL)
    if done.returncode != 0:
        raise tool.Failure(f"{done.returncode} of the jobs failed; {os.path.join(folder, 'joblog')} has their status. Call again to go on")


def counts_of(folder, part):
    """The five counts that hardcc printed of a range."""
    path = os.path.join(folder, "results", "1", str(part[0]), "2", str(part[1]), "stdout")
    lines = [line.split() for line in tool.read_bytes(path).decode().splitlines()]
    if [name for name, _ in lines] != OUTCOMES:
        raise tool.Failure(f"{path} holds no counts")
    return [int(number) for _, number in lines]


def arguments(parser):
    """The words of the command."""
    parser.add_argument("image", metavar="IMG")
    parser.add_argument("input", metavar="INPUT")
    parser.add_argument("--jobs", type=int, default=os.cpu_count() or 1, metavar="J", help="so many at a time")
    parser.add_argument("--report", metavar="OUT", help="write a page of HTML")
    parser.add_argument("--from", dest="first", type=int, default=0, metavar="N", help="the first step that is tried, from 0")
    parser.add_argument("--to", dest="last", type=int, metavar="M", help="the first step that is not tried; else all are up to the end")
    parser.add_argument("--steps", type=int, metavar="N", help="the number of steps of a run; else a quarter more than without a fault")
    parser.add_argument("--folder", metavar="DIR", help="where the results are kept; else IMG.campaign")
    parser.add_argument("--sshlogin", action="append", metavar="HOST", help="spread over machines that see the same files, as GNU parallel takes it")
    parser.add_argument("--sample", type=int, default=2, metavar="K", help="so many flips by `hardcc fault` for each cell of the report's map")


def run(asked):
    """Makes the campaign, and prints its counts."""
    length = length_of(asked.image, asked.input) if asked.steps is None or asked.last is None else asked.last
    steps = asked.steps or room(length)
    asked.last = min(asked.last if asked.last is not None else length, steps)
    folder = asked.folder or asked.image + ".campaign"
    parts = ranges(asked.first, asked.last, steps, max(1, asked.jobs))
    prepare(folder, plan_of(asked, steps))
    print(FIRST, flush=True)
    print(f"{asked.image} on {asked.input}: steps {asked.first} to {asked.last}, runs of {steps} steps, {len(parts)} ranges", flush=True)
    parallel(asked, folder, steps, parts)
    counts = [counts_of(folder, part) for part in parts]
    total = [sum(column) for column in zip(*counts)] or [0] * len(OUTCOMES)
    if sum(total) != REGISTERS * (asked.last - asked.first):
        raise tool.Failure("the counts do not come to all pairs of a step and a register")
    print("\n".join(f"{name} {number}" for name, number in zip(OUTCOMES, total)))
    found = silent.found(asked, steps, [part for part, row in zip(parts, counts) if row[-1]])
    for line in silent.lines(asked, steps, found):
        print(line)
    if asked.report:
        cells = silent.sampled(asked, steps, asked.sample)
        tool.write_text(asked.report, report.page(asked, steps, parts, counts, total, silent.lines(asked, steps, found), cells))
        print(f"report in {asked.report}")
    return 0

"""The command line: one parser for each command. A command's module is loaded only when it is called, so that one that lacks its
package doesn't stand in the way of the others."""
import argparse
import importlib
import sys

from view.tool import Failure, NOTICE

# Each command: its module, and what it does in a line.
COMMANDS = {
    "explain": ("view.explain", "a refused source: the line, a caret and a hint; an accepted one: what to look at"),
    "listing": ("view.listing", "an image word by word: functions, blocks, heads, checks, both streams, windows, aliases"),
    "trace": ("view.trace", "the steps of a run, to find the one to change"),
    "exposure": ("view.exposure", "how much of a run lies in windows"),
    "campaign": ("view.campaign", "faults at each step of a run, tried in parallel, with a report"),
    "certificate": ("view.certificate", "one page for a review"),
}


def parser():
    """The parser of the whole command line."""
    top = argparse.ArgumentParser(prog="hardview", description=NOTICE)
    kinds = top.add_subparsers(dest="command", metavar="COMMAND", required=True)
    for name, (_, what) in COMMANDS.items():
        kinds.add_parser(name, help=what, add_help=False)
    return top


def main(words):
    """Runs the command of the words and gives its status: 0, 3 where a source is refused, 1 where something fails, 2 for usage."""
    asked, rest = parser().parse_known_args(words[:1])
    module_name, what = COMMANDS[asked.command]
    try:
        module = importlib.import_module(module_name)
    except ImportError as missing:
        print(f"hardview: {asked.command} needs a package that is not here: {missing.name}", file=sys.stderr)
        return 1
    own = argparse.ArgumentParser(prog=f"hardview {asked.command}", description=f"{what}. {NOTICE}")
    module.arguments(own)
    try:
        return module.run(own.parse_args(rest + words[1:]))
    except Failure as failure:
        print(f"hardview: {failure}", file=sys.stderr)
        return 1
    except BrokenPipeError:
        sys.stderr.close()
        return 0

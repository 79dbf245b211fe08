"""What the comparisons with other programs share."""
import os
import sys
import tempfile

PROGRAM = os.path.abspath(os.path.join(os.path.dirname(os.path.abspath(__file__)), "../../crates/hardcc/out/hardcc"))


def main(compare, missing):
    """Calls `compare` in a folder of its own with a count and a seed, the words of the command line or 1000 and 1, and ends with 1
    where it answers that something differs. `missing` says what the comparison needs and doesn't find, or is empty."""
    if not missing and not os.access(PROGRAM, os.X_OK):
        missing = f"{PROGRAM} is not built"
    if missing:
        print(f"skipped: {missing}")
        sys.exit(0)
    words = sys.argv[1:]
    count = int(words[0]) if words else 1000
    seed = int(words[1]) if len(words) > 1 else 1
    here = os.getcwd()
    with tempfile.TemporaryDirectory() as folder:
        os.chdir(folder)
        is_wrong = compare(count, seed)
        os.chdir(here)
    sys.exit(int(is_wrong))

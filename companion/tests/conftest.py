"""What the tests share: the path of the modules, the sections of the file of mistakes, and hardcc where it is there."""
import os
import shutil
import subprocess
import sys

import pytest

HERE = os.path.dirname(os.path.abspath(__file__))
COMPANION = os.path.dirname(HERE)
TOP = os.path.dirname(COMPANION)
sys.path.insert(0, COMPANION)
BUILT = os.path.join(TOP, "crates", "hardcc", "out", "hardcc")
if "HARDCC" not in os.environ and not shutil.which("hardcc") and os.access(BUILT, os.X_OK):
    os.environ["HARDCC"] = BUILT


def sections():
    """The file of mistakes: title, source, the line that hardcc printed, and the wanted text of each."""
    with open(os.path.join(HERE, "mistakes.txt"), encoding="utf-8") as file:
        parts = file.read().removeprefix("== ").split("\n== ")
    found = []
    for part in parts:
        title, rest = part.split("\n", 1)
        source, told = ("\n" + rest).split("\n-- ", 1)
        line, shown = told.split("\n", 1)
        found.append((title, source[1:] + "\n", line, shown.rstrip("\n")))
    return found


@pytest.fixture(scope="session")
def hardcc():
    """The path of hardcc; tests that need it are skipped where it isn't there."""
    found = shutil.which(os.environ.get("HARDCC", "hardcc"))
    if found is None:
        pytest.skip("hardcc is not there: build it, or name it in HARDCC")
    return found


@pytest.fixture
def view(tmp_path):
    """Calls hardview in a folder of its own, with words and what comes through the pipe."""
    def call(*words, piped=None, status=0):
        done = subprocess.run([os.path.join(COMPANION, "hardview"), *map(str, words)], cwd=tmp_path, text=True, capture_output=True,
                              **({"input": piped} if piped is not None else {"stdin": subprocess.DEVNULL}))
        assert done.returncode == status, done.stdout + done.stderr
        return done.stdout
    return call

"""The program hardcc, called as a user calls it."""
import os
import shutil
import subprocess

NOTICE = "This is a help to read what hardcc prints, and proves nothing."
# The greatest number of steps that hardcc takes.
MOST_STEPS = 10_000_000


class Failure(Exception):
    """Something that ends a command with a line for the user."""


def program():
    """The path of hardcc: what the variable HARDCC names, else what is on the path."""
    named = os.environ.get("HARDCC", "hardcc")
    found = shutil.which(named)
    if found is None:
        raise Failure(f"no program {named}: put hardcc on the path, or its name in the variable HARDCC")
    return os.path.abspath(found)


def call(*words):
    """The status and the printed text of hardcc, called with these words."""
    done = subprocess.run([program(), *map(str, words)], capture_output=True, text=True)
    return done.returncode, done.stdout


def lines(*words):
    """The printed lines of hardcc, called with these words, where its status is 0; else a failure with what it printed."""
    status, text = call(*words)
    if status != 0:
        raise Failure(f"hardcc {' '.join(map(str, words))}: {text.strip() or 'nothing printed'} (status {status})")
    return text.splitlines()


def read_bytes(path):
    """The bytes of a file, or a failure that names it."""
    try:
        with open(path, "rb") as file:
            return file.read()
    except OSError as error:
        raise Failure(f"{path}: {error.strerror}") from None


def write_text(path, text):
    """Writes a text as a file, or fails with its name."""
    try:
        with open(path, "w", encoding="utf-8") as file:
            file.write(text)
    except OSError as error:
        raise Failure(f"{path}: {error.strerror}") from None

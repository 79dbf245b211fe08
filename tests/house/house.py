"""Reads the list of crates with its rooms, and what the files of each crate name. Shared by deps.py and imports.py."""
import os
import re

TOP = os.path.dirname(os.path.dirname(os.path.dirname(os.path.abspath(__file__))))
PARTS = {"src": ".rt", "specs": ".antt", "proofs": ".antt"}


def rooms():
    """The rooms of crates.txt in order: pairs of a title and its lines, each a pair of a crate and the libraries that it lists."""
    found = [("", [])]
    with open(f"{TOP}/crates.txt", encoding="utf-8") as lines:
        for line in lines:
            text, _, comment = line.partition("#")
            if text.strip():
                name, _, listed = text.partition(":")
                found[-1][1].append((name.split()[0], listed.split()))
            elif comment.strip():
                found.append((comment.strip(), []))
    return [(title, crates) for title, crates in found if crates]


def files(crate):
    """The part, the path and the text without comments of each source, spec and proof file of a crate."""
    for part, ending in PARTS.items():
        for at, folders, names in os.walk(f"{TOP}/crates/{crate}/{part}"):
            folders.sort()
            for name in sorted(names):
                if name.endswith(ending):
                    path = f"{at}/{name}"
                    with open(path, encoding="utf-8") as it:
                        yield part, os.path.relpath(path, TOP), re.sub(r"(?m)//.*$|--.*$", "", it.read())


def named(text, is_code):
    """The libraries that a text names: as `Rattle.NAME` in specs, proofs and clauses, and as `NAME::` in code."""
    found = set(re.findall(r"\bRattle\.([a-z0-9_]+)\b", text))
    return found | set(re.findall(r"(?<![\w:])([a-z0-9_]+)::", text)) if is_code else found


def foreign_proofs(crate, text):
    """The proof modules of other crates that a text imports, as pairs of a crate and a module."""
    found = re.findall(r"(?m)^\s*(?:pub )?(?:ghost )?use Rattle\.([a-z0-9_]+)\.proofs\.([\w.+-]+)", text)
    own = {name for _, crates in rooms() for name, _ in crates}
    return [(name, module) for name, module in found if name in own and name != crate]

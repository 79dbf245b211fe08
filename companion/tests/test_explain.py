"""explain: each refusal and each usual mistake has its text. The lines of hardcc stand in mistakes.txt, so hardcc isn't needed."""
import os
import re

import pytest
from conftest import TOP, sections

from view import explain, refusals

SECTIONS = sections()
HINTLESS = set()


@pytest.mark.parametrize("title, source, line, shown", SECTIONS, ids=[section[0] for section in SECTIONS])
def test_mistake(title, source, line, shown):
    assert "\n".join(explain.explained("a.c", source.encode(), line)) == shown


def test_every_mistake_has_a_hint():
    assert {title for title, _, _, shown in SECTIONS if "hint: " not in shown} == HINTLESS


def test_refusals_are_those_of_the_document():
    with open(os.path.join(TOP, "docs", "LANGUAGE.md"), encoding="utf-8") as file:
        text = file.read()
    part = text[text.index("## 3."):text.index("## 4.")]
    rows = re.findall(r"^\| ([A-Z]\w+(?:, [A-Z]\w+)*) \|", part, re.M)
    named = {name for row in rows for name in row.split(", ")} - {"Fault", "Line"}
    named |= {"TooLong", "BadToken", "LiteralTooLarge", "CommentOpen", "NoProgram"}
    assert named == set(refusals.MEANINGS)


WHOLE = {"TooManyBlocks", "StoreTooLarge", "FrameTooLarge", "TooLong"}


def test_every_refusal_is_shown():
    shown = {re.match(r"source refused: (\w+)", line).group(1) for _, _, line, _ in SECTIONS}
    assert shown | WHOLE == set(refusals.MEANINGS)


@pytest.mark.parametrize("name, line", [("TooManyBlocks", "source refused: TooManyBlocks at 0"), ("TooLong", "source refused: TooLong"),
                                        ("StoreTooLarge", "source refused: StoreTooLarge at 0")])
def test_of_the_whole(name, line):
    told = explain.explained("a.c", b"int main(void) { return 0; }\n", line)
    assert told == [f"a.c:1:1: error: {refusals.MEANINGS[name]} [{name}]", f"    hint: {refusals.GENERAL_HINTS[name]}"]


def test_frame():
    told = explain.explained("a.c", b"int f(void);\n", "source refused: FrameTooLarge at 4")
    assert told[0].startswith("a.c:1:5: error: this function needs more than 4000 words") and told[3].startswith("    hint: move locals")


@pytest.mark.parametrize("line", ["compiled", "image refused: not ELF", "source refused: Unheard at 3", "usage", ""])
def test_other_lines_stay(line):
    assert explain.explained("a.c", b"int main(void) { return 0; }", line) == [line]


def test_place_past_the_end():
    assert explain.explained("a.c", b"int", "source refused: NoProgram at 3")[0].startswith("a.c:1:4: error: ")


def test_place_by_line_markers():
    data = b'# 1 "a.h"\nint a;\n# 20 "a.c" 2\nint b;\nint c\nint main(void) { return 0; }\n'
    place = explain.Place("p.c", data, data.index(b"int main"))
    assert (place.name, place.shown) == ("a.c:22:1", "int main(void) { return 0; }")


def test_column_counts_characters():
    data = "int a; /* \u00e4 */ int b;".encode()
    assert explain.Place("a.c", data, data.index(b"int b")).name == "a.c:1:16"


def test_line_end_of_another_system():
    assert explain.Place("a.c", b"int a;\r\nb;\r\n", 8).shown == "b;"


PIPE = "int main(void) { return x; }\n"


def test_from_a_pipe(view, tmp_path):
    (tmp_path / "a.c").write_text(PIPE)
    told = view("explain", "a.c", piped="source refused: NameUnknown at 24\n", status=3)
    assert told.splitlines()[0] == explain.FIRST and "proves nothing" in told.splitlines()[0]
    assert told.splitlines()[1].startswith("a.c:1:25: error: ")


def test_by_itself(view, tmp_path, hardcc):
    (tmp_path / "a.c").write_text(PIPE)
    assert view("explain", "a.c", status=3).splitlines()[1].startswith("a.c:1:25: error: ")


def test_accepted_by_itself(view, tmp_path, hardcc):
    (tmp_path / "a.c").write_text("int main(void) { return 0; }\n")
    assert view("explain", "a.c") == explain.FIRST + "\ncompiled\n"


def test_no_source(view):
    view("explain", "none.c", status=1)


@pytest.mark.parametrize("title", ["a cast", "main is void", "a brace is missing", "the least int", "a string"])
def test_lines_are_those_of_hardcc(title, view, tmp_path, hardcc):
    source, line = next((source, line) for name, source, line, _ in SECTIONS if name == title)
    (tmp_path / "a.c").write_text(source)
    shown = next(shown for name, _, _, shown in SECTIONS if name == title)
    assert view("explain", "a.c", status=3) == explain.FIRST + "\n" + shown + "\n"

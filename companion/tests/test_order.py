"""Warnings of compound assignments whose right side writes the same place."""
import pytest

order = pytest.importorskip("view.order")

WARNED = {
    "a variable": "int x; int f(void) { x = x | 1; return 1; }\nint main(void) { x |= f(); return x; }",
    "through another function": "int x; void g(void) { x++; }\nint f(void) { g(); return 1; }\nint main(void) { x += 2 * f(); return x; }",
    "an element": "int a[3]; int f(void) { a[1] = 2; return 1; }\nint main(void) { a[0] += f(); return a[0]; }",
}
QUIET = {
    "a plain assignment": "int x; int f(void) { x = 1; return 1; }\nint main(void) { x = x + f(); return x; }",
    "another variable": "int x; int y; int f(void) { y = 1; return 1; }\nint main(void) { x += f(); return x; }",
    "a local": "int f(void) { int x = 1; x = 2; return x; }\nint main(void) { int x = 1; x += f(); return x; }",
    "the input": "int x;\nint main(void) { x += in_word(); return x; }",
    "no program": "int x = ",
}


@pytest.mark.parametrize("name", WARNED)
def test_warned(name):
    (at, what), = order.findings(WARNED[name])
    text = WARNED[name]
    assert text[at:].split()[0][0] in "xa" and text[:at].endswith("int main(void) { ") and "is read before f is called" in what


@pytest.mark.parametrize("name", QUIET)
def test_quiet(name):
    assert order.findings(QUIET[name]) == []


def test_comments_and_markers_keep_places():
    text = '// it\'s "here"\n/* and\nhere */ # no\n' + WARNED["a variable"]
    assert len(order.bare(text)) == len(text) and order.bare(text).count("\n") == text.count("\n")


def test_offset_counts_bytes():
    assert order.offset("\u00e4b\nc", 2, 1) == 4

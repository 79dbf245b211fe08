"""Compound assignments whose right side calls a function that writes the same place. hardcc reads the place first, as ISO C 1999 leaves
open; by ISO C 2011, 6.5.16.2, the call comes wholly before or after, so that a host's compiler gives another word. The text is
read by pycparser."""
import re

from pycparser import c_ast, c_parser

WHAT = ("{name} is read before {function} is called, which writes it: a host's compiler reads it after the call. "
        "Call first: int word = ..; {name} {operator} word;")


def bare(text):
    """The text with blanks in place of comments and line markers, so that places stay."""
    blank = lambda found: re.sub(r"[^\n]", " ", found.group())
    text = re.sub(r"/\*.*?\*/|//[^\n]*", blank, text, flags=re.S)
    return re.sub(r"^[ \t]*#[^\n]*", blank, text, flags=re.M)


class Functions(c_ast.NodeVisitor):
    """Of each function: what names it writes, and which functions it calls."""

    def __init__(self):
        self.writes, self.calls, self.now = {}, {}, None

    def visit_FuncDef(self, node):
        self.now = node.decl.name
        self.writes[self.now], self.calls[self.now] = set(), set()
        self.generic_visit(node)
        self.now = None

    def visit_Assignment(self, node):
        self.write(node.lvalue)
        self.generic_visit(node)

    def visit_UnaryOp(self, node):
        if node.op in ("++", "--", "p++", "p--"):
            self.write(node.expr)
        self.generic_visit(node)

    def visit_FuncCall(self, node):
        if self.now and isinstance(node.name, c_ast.ID):
            self.calls[self.now].add(node.name.name)
        self.generic_visit(node)

    def write(self, place):
        name = name_of(place)
        if self.now and name:
            self.writes[self.now].add(name)

    def written_by(self, function):
        """All names that a function writes, itself or through what it calls."""
        seen, open_ones = set(), [function]
        while open_ones:
            one = open_ones.pop()
            if one not in seen:
                seen.add(one)
                open_ones += self.calls.get(one, ())
        return set().union(*(self.writes.get(one, set()) for one in seen))


class Compounds(c_ast.NodeVisitor):
    """Compound assignments, each with the functions that its right side calls."""

    def __init__(self):
        self.found = []

    def visit_Assignment(self, node):
        if node.op != "=" and name_of(node.lvalue):
            called = Called()
            called.visit(node.rvalue)
            self.found.append((node, called.names))
        self.generic_visit(node)


class Called(c_ast.NodeVisitor):
    """The names of the functions that an expression calls."""

    def __init__(self):
        self.names = []

    def visit_FuncCall(self, node):
        if isinstance(node.name, c_ast.ID):
            self.names.append(node.name.name)
        self.generic_visit(node)


def name_of(place):
    """The name that is assigned to, or whose element is."""
    if isinstance(place, c_ast.ArrayRef):
        place = place.name
    return place.name if isinstance(place, c_ast.ID) else None


def offset(text, line, column):
    """The byte at which a line and a column, both from 1, stand."""
    lines = text.split("\n")
    return len("\n".join(lines[:line - 1]).encode()) + (1 if line > 1 else 0) + len(lines[line - 1][:column - 1].encode())


def findings(text):
    """Pairs of a byte and what is to be said of it; none where pycparser can't read the text."""
    plain = bare(text)
    try:
        tree = c_parser.CParser().parse(plain)
    except Exception:
        return []
    functions, compounds = Functions(), Compounds()
    functions.visit(tree)
    compounds.visit(tree)
    globals_ = {item.name for item in tree.ext if isinstance(item, c_ast.Decl) and not isinstance(item.type, c_ast.FuncDecl)}
    found = []
    for node, called in compounds.found:
        name = name_of(node.lvalue)
        for function in called:
            if name in globals_ and name in functions.written_by(function):
                at = offset(text, node.coord.line, node.coord.column or 1)
                found.append((at, WHAT.format(name=name, function=function, operator=node.op)))
                break
    return found

#!/usr/bin/env python3
"""Compares the grammar with a parser of C99, pycparser.

Programs are drawn from the grammar of docs/LANGUAGE.md, part 2: the program must not refuse one with NoProgram, and pycparser
must read it. Then each is changed at one or two tokens: what the program then does not refuse with NoProgram, pycparser must
read too, since the subset is a part of C. Programs that pycparser alone reads are counted; they use what was left out.

Build the program first: rt ci. Usage: grammar.py [PROGRAMS [SEED]]
"""
import random
import subprocess
import sys

try:
    from pycparser.c_parser import CParser

    try:
        from pycparser.c_parser import ParseError
    except ImportError:
        from pycparser.plyparser import ParseError
except ImportError:
    CParser = None

from peer import PROGRAM, main

NAMES = ["a", "b", "f", "main", "in_word", "out_word", "_t"]
LITERALS = ["0", "7", "0x1F", "017", "3u", "0XaU", "2147483647", "4294967295u"]
BINARY = ["*", "/", "%", "+", "-", "<<", ">>", "<", ">", "<=", ">=", "==", "!=", "&", "^", "|", "&&", "||"]
ASSIGNMENT = ["=", "+=", "-=", "*=", "/=", "%=", "<<=", ">>=", "&=", "|=", "^="]
WORDS = ["int", "signed", "unsigned", "void", "const", "static", "if", "else", "while", "do", "for", "break", "continue", "return"]
OTHERS = ["++", "--", "~", "!", "?", ":", ",", ";", "(", ")", "{", "}", "[", "]", "a", "f", "7"]


class Drawn:
    """Programs as lists of tokens. `d` is how deep an expression or a statement may still grow."""

    def __init__(self, seed):
        self.random = random.Random(seed)

    def likely(self, share):
        return self.random.random() < share

    def one(self, *choices):
        return self.random.choice(choices)

    def name(self):
        return [self.one(*NAMES)]

    def separated(self, part, count):
        tokens = part()
        for _ in range(count - 1):
            tokens = tokens + [","] + part()
        return tokens

    def primary(self, d):
        kind = self.one("literal", "name", "index", "call", "paren") if d > 0 else self.one("literal", "name")
        if kind == "literal":
            return [self.one(*LITERALS)]
        if kind == "index":
            return self.name() + ["["] + self.expression(d - 1) + ["]"]
        if kind == "call":
            count = self.one(0, 1, 2)
            return self.name() + ["("] + (self.separated(lambda: self.assignment(d - 1), count) if count else []) + [")"]
        if kind == "paren":
            return ["("] + self.expression(d - 1) + [")"]
        return self.name()

    def unary(self, d):
        if d > 0 and self.likely(0.2):
            return [self.one("++", "--", "+", "-", "~", "!")] + self.unary(d - 1)
        tokens = self.primary(d)
        while self.likely(0.1):
            tokens = tokens + [self.one("++", "--")]
        return tokens

    def choice(self, d):
        tokens = self.unary(d - 1)
        while d > 0 and self.likely(0.3):
            tokens = tokens + [self.one(*BINARY)] + self.unary(d - 1)
        if d > 0 and self.likely(0.1):
            return tokens + ["?"] + self.expression(d - 1) + [":"] + self.choice(d - 1)
        return tokens

    def assignment(self, d):
        if d > 0 and self.likely(0.2):
            return self.unary(d - 1) + [self.one(*ASSIGNMENT)] + self.assignment(d - 1)
        return self.choice(d)

    def expression(self, d):
        tokens = self.assignment(d)
        while d > 0 and self.likely(0.1):
            tokens = tokens + [","] + self.assignment(d - 1)
        return tokens

    def specifiers(self, is_function, is_local):
        if is_function and self.likely(0.3):
            words = ["void"]
        else:
            words = list(self.one(["int"], ["signed"], ["unsigned"], ["int", "signed"], ["unsigned", "int"]))
        words += ["const"] * self.likely(0.2) + ["static"] * (not is_local and self.likely(0.2))
        self.random.shuffle(words)
        return words

    def declarator(self, d):
        return self.name() + (["="] + self.assignment(d) if self.likely(0.5) else [])

    def declaration(self, d):
        return self.specifiers(False, True) + self.separated(lambda: self.declarator(d - 1), self.one(1, 1, 2)) + [";"]

    def perhaps(self, d):
        return self.expression(d) if self.likely(0.7) else []

    def tested(self, d):
        return ["("] + self.expression(d) + [")"]

    def statement(self, d):
        kind = self.one("empty", "value", "block", "if", "else", "while", "do", "for", "jump", "return")
        if d <= 0 or kind == "empty":
            return [";"]
        if kind == "value":
            return self.expression(d - 1) + [";"]
        if kind == "block":
            return self.block(d - 1)
        if kind == "if":
            return ["if"] + self.tested(d - 1) + self.statement(d - 1)
        if kind == "else":
            # a block, since an `else` belongs to the nearest `if`
            return ["if"] + self.tested(d - 1) + self.block(d - 1) + ["else"] + self.statement(d - 1)
        if kind == "while":
            return ["while"] + self.tested(d - 1) + self.statement(d - 1)
        if kind == "do":
            return ["do"] + self.statement(d - 1) + ["while"] + self.tested(d - 1) + [";"]
        if kind == "for":
            first = self.declaration(d - 1) if self.likely(0.4) else self.perhaps(d - 1) + [";"]
            return ["for", "("] + first + self.perhaps(d - 1) + [";"] + self.perhaps(d - 1) + [")"] + self.statement(d - 1)
        if kind == "jump":
            return [self.one("break", "continue"), ";"]
        return ["return"] + self.perhaps(d - 1) + [";"]

    def block(self, d):
        tokens = ["{"]
        for _ in range(self.one(0, 1, 2, 3)):
            tokens += self.declaration(d) if self.likely(0.3) else self.statement(d)
        return tokens + ["}"]

    def variable(self):
        kind = self.one("bare", "valued", "array", "array_valued")
        if kind == "bare":
            return self.name()
        if kind == "valued":
            return self.name() + ["="] + self.choice(2)
        tokens = self.name() + ["["] + (self.choice(2) if self.likely(0.7) else []) + ["]"]
        if kind == "array":
            return tokens
        values = self.separated(lambda: self.choice(2), self.one(1, 2, 3))
        return tokens + ["=", "{"] + values + [","] * self.likely(0.3) + ["}"]

    def parameter(self, is_named):
        return self.specifiers(False, True) + (self.name() if is_named or self.likely(0.5) else [])

    def item(self, d):
        if self.likely(0.4):
            return self.specifiers(False, False) + self.separated(self.variable, self.one(1, 1, 2)) + [";"]
        has_body = self.likely(0.7)
        listed = self.separated(lambda: self.parameter(has_body), self.one(1, 2, 3))
        parameters = self.one([], ["void"], listed, listed)
        return self.specifiers(True, False) + self.name() + ["("] + parameters + [")"] + (self.block(d) if has_body else [";"])

    def program(self):
        d = self.one(1, 2, 3, 4)
        return sum((self.item(d) for _ in range(self.one(1, 1, 2, 3))), [])

    def changed(self, tokens):
        tokens = list(tokens)
        for _ in range(self.one(1, 1, 2)):
            at, other = self.random.randrange(len(tokens)), self.random.randrange(len(tokens))
            kind = self.one("drop", "add", "put", "repeat", "swap")
            if kind == "drop" and len(tokens) > 1:
                del tokens[at]
            elif kind == "add":
                tokens.insert(at, self.one(*BINARY, *ASSIGNMENT, *WORDS, *OTHERS))
            elif kind == "put":
                tokens[at] = self.one(*BINARY, *ASSIGNMENT, *WORDS, *OTHERS)
            elif kind == "repeat":
                tokens.insert(at, tokens[other])
            else:
                tokens[at], tokens[other] = tokens[other], tokens[at]
        return tokens


def is_ours(source):
    with open("a.c", "w") as file:
        file.write(source)
    said = subprocess.run([PROGRAM, "compile", "a.c", "a.img"], capture_output=True, text=True)
    if said.stdout.startswith("source refused: NoProgram"):
        return False
    if said.stdout in ("compiled\n", "source refused: NotYet\n"):
        return True
    sys.exit(f"not expected: status {said.returncode}, {said.stdout!r} of {source}")


def is_theirs(source):
    try:
        CParser().parse(source)
        return True
    except (ParseError, AssertionError):
        return False


def compare(count, seed):
    drawn, wrong, both, theirs, neither = Drawn(seed), 0, 0, 0, 0
    for _ in range(count):
        tokens = drawn.program()
        source = " ".join(tokens)
        if not (is_ours(source) and is_theirs(source)):
            wrong += 1
            print(f"of the grammar, and not read by both: {source}")
        for _ in range(3):
            source = " ".join(drawn.changed(tokens))
            ours, also = is_ours(source), is_theirs(source)
            both += ours and also
            theirs += also and not ours
            neither += not also and not ours
            if ours and not also:
                wrong += 1
                print(f"not read by pycparser alone: {source}")
    print(f"{count} programs of the grammar; of the changed ones {both} are read by both, {neither} by neither, {theirs} by pycparser alone")
    print(f"{wrong} differ")
    return wrong > 0


if __name__ == "__main__":
    main(compare, "" if CParser else "pycparser is not installed")

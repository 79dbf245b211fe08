"""Hints: what a C programmer most likely meant by what stands at the place of a refusal, and what to write."""
import difflib
import re

WORD = r"[A-Za-z_]\w*"
NO_64 = "there are no 64 bits: keep the value in two words, or scale it"
NO_POINTER = "no pointers: use a variable at file scope, or an index into an array at file scope"

# The words that are no names.
KEYWORDS = set("""int unsigned signed void const static if else while do for break continue return switch case default auto char double enum
    extern float goto inline long register restrict short sizeof struct typedef union volatile""".split())

# Names of types that are none here, and what stands in their place.
TYPES = {
    **dict.fromkeys(("uint8_t", "u8", "UINT8", "byte", "uchar"), "unsigned, with & 255 where it wraps"),
    **dict.fromkeys(("uint16_t", "u16", "UINT16", "ushort"), "unsigned, with & 65535 where it wraps"),
    **dict.fromkeys(("uint32_t", "u32", "UINT32", "size_t", "uint", "uintptr_t", "uint_fast8_t"), "unsigned"),
    **dict.fromkeys(("int8_t", "s8", "i8"), "int, with (x & 255 ^ 128) - 128 where it wraps"),
    **dict.fromkeys(("int16_t", "s16", "i16"), "int, with (x & 65535 ^ 32768) - 32768 where it wraps"),
    **dict.fromkeys(("int32_t", "s32", "i32", "ssize_t", "ptrdiff_t"), "int"),
    **dict.fromkeys(("bool", "_Bool"), "int, with != 0 where a value becomes 0 or 1"),
    **dict.fromkeys(("uint64_t", "int64_t", "u64", "s64"), "two words: there are no 64 bits"),
    **dict.fromkeys(("FILE", "va_list", "complex", "_Complex"), "nothing: there is none here"),
}

# Names that a library declares elsewhere.
LIBRARY = {
    **dict.fromkeys(("printf", "puts", "putchar", "fprintf", "putc"), "out_word(e) puts out a word; it is the only output"),
    **dict.fromkeys(("scanf", "getchar", "fgets", "getc", "read"), "in_word() takes the next word of the input; it is the only input"),
    **dict.fromkeys(("exit", "abort", "_exit"), "return from main ends the program"),
    **dict.fromkeys(("memset", "memcpy", "memmove", "memcmp", "strlen", "strcpy", "strcmp"), "no library: write the loop over the array out"),
    **dict.fromkeys(("abs", "labs", "rand", "srand", "sqrt", "sin", "cos", "pow", "qsort"), "no library: write the function out"),
    **dict.fromkeys(("malloc", "calloc", "free", "realloc"), "no memory is taken at run time: declare an array at file scope"),
    **dict.fromkeys(("true", "TRUE"), "write 1"),
    **dict.fromkeys(("false", "FALSE", "NULL", "EXIT_SUCCESS"), "write 0"),
    "EXIT_FAILURE": "write 1",
    "INT_MAX": "write 0x7fffffff",
    "INT_MIN": "write -0x7fffffff - 1",
    "UINT_MAX": "write 0xffffffff",
    "assert": "write if (!(e)) return 1; or out_word of a number of its own",
}

# What a character constant stands for after its backslash.
ESCAPES = {"n": 10, "t": 9, "r": 13, "0": 0, "a": 7, "b": 8, "f": 12, "v": 11, "\\": 92, "'": 39, '"': 34}

# What precedes (at its end), what stands at the place (at its beginning), and the hint: the first row that fits gives it.
AT_TOKENS = [
    (r"", r"#\s*include", "there is no preprocessor and no library: in_word() and out_word(e) are known without a declaration"),
    (r"", r"#\s*(define|undef|if|ifdef|ifndef|else|elif|endif)\b", "there is no preprocessor: run gcc -E -P first (output with line markers is read too)"),
    (r"", r"#\s*pragma", "leave this line out"),
    (r"", r"#", "no # here: a line marker stands alone on its line; ## and # of macros need a preprocessor first"),
    (r"\b(asm|__asm__|__asm)\s*(volatile\s*)?\(\s*", r'"', "no assembler in the text"),
    (r"\bextern\s+", r'"', "no linkage names: leave this out"),
    (r"", r'L?"', "no strings: an array of numbers at file scope holds a text"),
    (r"", r"\.\.\.", "no lists of any length, and no ranges of cases: write each out"),
    (r"[\w\])]\s*", r"\.\s*[A-Za-z_]", "no structs: one variable or array at file scope for each field"),
    (r"[{,]\s*", r"\.\s*[A-Za-z_]", "no structs and no designated initialisers: one array at file scope for each field"),
    (r"\d", r"\.", "no floating constants: use fixed point, as 0.5 * x is x / 2, and Q8 has 1.0 as 256"),
    (r"", r"\.\d", "no floating constants: use fixed point, as 0.5 * x is x / 2, and Q8 has 1.0 as 256"),
    (r"", r"\d+[eE]", "no floating constants: use fixed point"),
    (r"", r"0[bB][01]+", "no binary constants: write it as hexadecimal, 0x.."),
    (r"", r"0[0-7]*[89]", "a constant that begins with 0 is octal, with digits from 0 to 7"),
    (r"", r"0[xX]\b", "digits are missing after 0x"),
    (r"", r"\d\w*?(ll|LL)", "no suffix LL: " + NO_64),
    (r"", r"\d\w*?[lL]", "no suffix L: int and unsigned have 32 bits; u is the only suffix"),
    (r"", r"\d\w*", "no such constant: digits, and then u or nothing"),
    (r"", r"\\\s*\n", "no backslash before a line end: a text line may just go on"),
    (r"", r"@|\$|`", "this character may stand in comments only"),
]

AT_PROGRAMS = [
    (r"", r"(struct|union)\b", "no structs: one variable or array at file scope for each field"),
    (r"", r"enum\b", "no enum: write the numbers (a const name is no constant for case and length), or #define them and run gcc -E -P"),
    (r"", r"typedef\b", "no typedef: write int or unsigned, or #define the name and run gcc -E -P"),
    (r"", r"long\s+long\b", NO_64),
    (r"", r"unsigned\s+long\s+long\b", NO_64),
    (r"\blong\s+", r"long\b", NO_64),
    (r"", r"char\b", "no char: write int, with (x & 255 ^ 128) - 128 where it wraps, or unsigned with & 255"),
    (r"", r"short\b", "no short: write int, with (x & 65535 ^ 32768) - 32768 where it wraps, or unsigned with & 65535"),
    (r"", r"long\b", "no long: int has 32 bits, as long on this machine; where 64 are needed, keep two words"),
    (r"", r"(float|double)\b", "no floating point: use int in fixed point, as Q8 with 1.0 as 256"),
    (r"", r"goto\b", "no goto: use a loop with break, or a function with return"),
    (r"", r"sizeof\b", "no sizeof: write the number (of elements, for an array)"),
    (r"", r"static\b(?=.*)", "static stands at file scope only: make this a variable at file scope"),
    (r"", r"extern\b", "leave this out: all is in one text; a variable is declared once, a function may be declared often"),
    (r"", r"inline\b|register\b|auto\b|restrict\b", "leave this word out: it is reserved and has no use here"),
    (r"", r"volatile\b", "leave this word out: there are no devices and no interrupts; input and output are in_word and out_word"),
    (r"", r"(__attribute__|__extension__|__inline__|__inline|_Noreturn|_Static_assert|_Alignas)\b", "leave this out"),
    (r"\(\s*", r"(const\s+)?(int|unsigned|signed)\b[^;()]*\*\s*\)", "no casts and no pointers"),
    (r"\(\s*", r"(int|unsigned|signed)(\s+int)?\s*\)", "no casts: assign to a variable of the type (u + 0u is unsigned)"),
    (r"\(\s*", r"void\s*\)\s*\w", "no casts: leave (void) out, a value may be dropped"),
    (r"", r"case\b|default\b", "a label stands directly inside the braces of its switch, and a statement follows the labels of each clause but the last"),
    (r"\belse\s*|\bif\b[^;{}]*", r"else\b", "this else has no if"),
    (r"", r"else\b", "this else has no if: is there a ; after the if's ), or are braces missing around several statements?"),
    (r"(->|-\s*)", r">", "no pointers and no structs: one array at file scope for each field, and an index"),
    (r"\*\s*", r"\*", "no pointers, and no power: multiply, or write a function"),
    (r"\b(int|unsigned|signed|void|const|char)\s*(const\s*)?", r"\*", NO_POINTER),
    (r"[,]\s*", r"\*\s*" + WORD, NO_POINTER),
    (r"[\w\])]\s*=", r"\*\s", "a compound assignment is written *="),
    (r"[=(,;{}]\s*|\breturn\s*|^\s*", r"\*", NO_POINTER),
    (r"[=(,;{]\s*|\breturn\s*", r"&", "no addresses: pass a value and return one, or use a variable at file scope"),
    (r"\b(int|unsigned|signed|void)\s*", r"\(\s*\*", "no pointers to functions: a switch over a number calls one or the other"),
    (r"\]\s*", r"\[", "arrays have one dimension: m[i][j] becomes m[COLUMNS * i + j]"),
    (r"[{,]\s*", r"\[", "no designated initialisers: write the elements in order"),
    (r"\)\s*", r"\[", "only a name is indexed"),
    (r"\b(int|unsigned|signed)\s+\w+\s*", r"\[\s*\]?", "arrays stand at file scope only, and are no parameters: pass an index"),
    (r",\s*\w+\s*", r"\[", "arrays stand at file scope only, and are no parameters: pass an index"),
    (r"=\s*", r"\{", "an initialiser in braces stands at an array at file scope only"),
    (r"\{\s*", r"\}", "an initialiser has one element at least; what has none is 0 anyway"),
    (r"\b(if|while|for|switch)\s*", r"[^\s(]", "a ( stands here, and a ) after the test"),
    (r"\bdo\s*\{.*\}\s*", r"[^\s]", "a do ends by while (..);"),
    (r"\bfor\s*\([^;)]*", r"[^;\w]", "the clauses of for are parted by two ;"),
    (r"[^=!<>]=\s*", r"=", "== compares, and = assigns: one of them, without a blank"),
    (r"[\w)\]]\s*[-+*/%&|^]\s*\w+\s*", r"=[^=]", "the left side of = is a name or an element; to compare take =="),
    (r"", r"=[^=]", "the left side of = is a name or an element of an array; to compare take =="),
    (r"\b(int|unsigned|signed)\s*", r"(int|unsigned|signed)\b", "each word of a type stands once"),
    (r"\bvoid\s+\w+\s*", r"[;=,\[]", "a variable has the type int or unsigned"),
    (r"\?\s*", r":", "the middle of ? : is missing: a ? a : b, where a has no effect"),
    (r"\bcase\b[^:]*:\s*|\bdefault\s*:\s*", r"(int|unsigned|signed|const)\b", "a declaration stands after a label only inside braces of its own: case 1: { int x; .. }"),
    (r"\bswitch\s*\([^{}]*\)\s*", r"[^{\s]", "the clauses of a switch stand in braces"),
    (r"\bswitch\s*\([^{}]*\)\s*\{\s*", r"[^}\s]", "a switch begins with a label: case or default"),
    (r"", r"(int|unsigned|signed|const)\b", "a declaration cannot stand here: put it in braces, or before"),
]


def first_of(rows, before, rest):
    """The hint of the first row that fits, or None."""
    for precedes, follows, hint in rows:
        if re.match(follows, rest, re.S) and (not precedes or re.search(f"(?:{precedes})$", before, re.S)):
            return hint
    return None


def of_character(rest):
    """The hint at a quote: the number that the character constant stands for, where it is one."""
    found = re.match(r"'(\\?)([^\n])'", rest)
    if found is None:
        return "no character constants: write the code, as 65 for A"
    code = ESCAPES.get(found.group(2)) if found.group(1) else ord(found.group(2))
    return f"no character constants: write {code}" if code is not None else "no character constants: write the code"


def of_token(before, rest):
    """The hint where no token begins."""
    if rest.startswith("\ufeff"):
        return "the file begins with a byte order mark: save it without one"
    if rest[:1] >= "\x80":
        return f"the character U+{ord(rest[0]):04X} may stand in comments only"
    if rest.startswith("'"):
        return of_character(rest)
    return first_of(AT_TOKENS, before, rest)


def depth_of(text):
    """How many braces are open after the text; those in comments count too, so it is a guess."""
    bare = re.sub(r"/\*.*?\*/|//[^\n]*", " ", text, flags=re.S)
    return bare.count("{") - bare.count("}")


def open_parentheses(before):
    """How many parentheses of the last statement are open."""
    last = re.split(r"[{}]|;(?![^()]*\))", before)[-1]
    return last.count("(") - last.count(")")


def of_type(before, rest):
    """The hint where a name stands for a type, at the place or before the name at the place, or None."""
    word = re.match(WORD, rest).group()
    previous = re.search(rf"(?:^|[;{{}}(,])\s*(?:const\s+|static\s+)*({WORD})\s+$", before)
    for name, is_type in ((word, re.match(WORD + r"\s+\**\s*" + WORD, rest)), (previous and previous.group(1), previous)):
        if name in TYPES:
            return f"{name} is no type here: write {TYPES[name]}"
        if is_type and name not in KEYWORDS:
            return f"{name} is no type: int and unsigned are the only ones"
    return None


def of_name(before, rest):
    """The hint where a name stands that the program can't go on with, or None."""
    found = of_type(before, rest)
    if found:
        return found
    if depth_of(before) == 0 and re.match(WORD, rest).group() not in KEYWORDS:
        if re.match(WORD + r"\s*\([^;{]*\)\s*(\{|[^;{]*;[^{]*\{)", rest, re.S) and re.search(r"(^|[;}])\s*$", before):
            return "each function has a type: write int or void before its name"
        if re.match(WORD + r"\s*[;=\[,]", rest) and re.search(r"(^|[;}]|const|static)\s*$", before):
            return "each variable has a type: write int or unsigned before its name"
        if re.search(r"\(([^()]*,)?\s*$", before):
            return "each parameter has a type, in the parentheses: int f(int a, int b)"
    return None


def of_program(before, rest):
    """The hint at the first token with which the text is no program any more, or None."""
    stripped = before.rstrip()
    if not rest.strip():
        return "the text ends here: is a } missing?" if depth_of(before) > 0 else "the text ends here: is a ; or a body missing?"
    if rest[0] == "}" and depth_of(before) <= 0:
        return "this } closes nothing: is there one too many above?"
    if rest[0] in ";{}" and open_parentheses(before) > 0:
        return "is a ) missing before this?"
    if rest[0] == ")" and open_parentheses(before) <= 0:
        return "this ) closes nothing"
    if rest[0] == "(" and depth_of(before) > 0 and re.search(rf"\b(int|unsigned|void)\s+{WORD}\s*$", before):
        return "a function cannot be declared inside another: is a } missing above?"
    if re.match(r"void\s+\w+\s*\(", rest) and depth_of(before) > 0:
        return "a function cannot be declared inside another: is a } missing above?"
    if stripped and stripped[-1] not in ";{},(=" and "\n" in before[len(stripped):] and not re.match(r"[;{})\]]", rest):
        if not re.search(r"\)$", stripped) or depth_of(before) > 0 and not re.search(r"\b(if|while|for|switch)\b[^;]*\)$", stripped):
            return "is a ; missing at the end of the line before?"
    named = of_name(before, rest) if re.match(WORD, rest) else None
    found = named or first_of(AT_PROGRAMS, before, rest)
    if found is None and rest[0] == ":":
        return "labels are case and default only: there is no goto"
    if found is None and rest[0] == "}" and stripped[-1:] not in ("", ";", "{", "}"):
        return "is a ; missing before this }?"
    return found


def of_unknown(text, rest):
    """The hint at a name without a declaration."""
    found = re.match(WORD, rest)
    if found is None:
        return None
    word = found.group()
    if word.startswith("__builtin_"):
        return "no builtins: write the function out"
    if re.search(rf"\b(int|unsigned|void)\s+{word}\s*\([^;{{]*\)\s*\{{", rest):
        return f"{word} is defined further down: put a prototype before this"
    if re.search(rf"\b(int|unsigned)\s+{word}\b", text):
        return f"{word} is declared elsewhere, in another block or further down: declare it before, in a scope around this"
    if word in LIBRARY:
        return LIBRARY[word]
    names = set(re.findall(WORD, text)) - {word} | {"in_word", "out_word"}
    near = difflib.get_close_matches(word, sorted(names), 1, 0.75)
    return f"did you mean {near[0]}?" if near else "variables and functions are declared before they are used"


def of_twice(before, rest):
    """The hint at a name that is declared twice."""
    word = re.match(WORD, rest).group()
    if word in ("in_word", "out_word"):
        return f"{word} is known without a declaration, and has no body in the text"
    if depth_of(before) == 0:
        return "a variable at file scope is declared once here, also where ISO C allows it again; a function has one body"
    return "leave the type out to assign, or take another name; parameters and the body share one scope"


def of_literal(before, rest):
    """The hint at a constant that is too large."""
    if re.match(r"2147483648\b", rest) and re.search(r"-\s*$", before):
        return "write -2147483647 - 1: the minus sign is no part of a constant"
    if re.match(r"\d+\b", rest) and rest[0] != "0" and int(re.match(r"\d+", rest).group()) < 1 << 32:
        return "write it with u, as unsigned, or as hexadecimal"
    return NO_64


def of_main(text):
    """The hint where main isn't as it has to be: what the text has in its place."""
    found = re.search(r"\b(\w+)\s+main\s*\(([^)]*)\)", text)
    if found is None:
        return "the text has no main at all: write int main(void) { .. }"
    if found.group(1) == "void":
        return "main is void here: write int main(void), and return 0; at its end"
    if found.group(2).strip() not in ("", "void"):
        return "main has parameters here: write int main(void); input comes by in_word()"
    return None


def hint(refusal, text, at):
    """The hint to a refusal at a place of the text (a number of its characters), or None."""
    before, rest = text[:at], text[at:]
    special = {
        "BadToken": lambda: of_token(before, rest),
        "NoProgram": lambda: of_program(before, rest),
        "NameUnknown": lambda: of_unknown(text, rest),
        "NameTwice": lambda: of_twice(before, rest),
        "LiteralTooLarge": lambda: of_literal(before, rest),
        "NoMain": lambda: of_main(text),
    }
    return special[refusal]() if refusal in special else None

"""What each refusal of a source means, in a line. The causes are those of docs/LANGUAGE.md."""

MEANINGS = {
    "TooLong": "the source has more than 1048576 bytes",
    "BadToken": "no token of the language begins here",
    "LiteralTooLarge": "this constant does not fit in 32 bits (a decimal one without u: at most 2147483647)",
    "CommentOpen": "this comment is never closed",
    "NoProgram": "with this token the text is no program any more",
    "NameTwice": "this name is declared already in this scope",
    "PrototypeDiffers": "this function was declared otherwise before",
    "BadLength": "an array has 1 to 32768 elements",
    "NotConstant": "only constants may stand here: no name (not even of a const), call or assignment, and no division by 0",
    "TooManyInitialisers": "this is the first initialiser too many",
    "NameUnknown": "no declaration of this name is in force here",
    "NotAFunction": "this is called and is no function",
    "NotAnArray": "this is indexed and is no array",
    "NotScalar": "an array or a function stands here without index or call",
    "ArgCount": "this call has another number of arguments than the function has parameters",
    "VoidUsed": "this call gives no value, and one is needed",
    "NotAssignable": "what is assigned to is const, or neither a name nor an element of an array",
    "BadReturn": "a value is returned from a void function, or none from another",
    "BreakOutside": "break stands outside loops and switch, or continue outside loops",
    "CaseTwice": "this switch has that case already",
    "NoBody": "this function is called and has no body in this text",
    "NoMain": "there is no int main(void) with a body",
    "FrameTooLarge": "this function needs more than 4000 words of parameters, locals and temporaries",
    "TooManyBlocks": "the program has too many branches, loops and calls (a block cost above 16000)",
    "StoreTooLarge": "variables at file scope and the deepest chain of calls need more than 32768 pairs of words",
}

# These are faults of the whole program: their place is 0 and says nothing.
OF_THE_WHOLE = {"NoMain", "TooManyBlocks", "StoreTooLarge", "TooLong"}

# What helps with a refusal whatever stands at its place.
GENERAL_HINTS = {
    "TooLong": "comments count too: strip them by gcc -E -P, or make two programs of it",
    "NotConstant": "write the number itself; a macro works too, where gcc -E -P runs first",
    "NotAssignable": "leave const out where the variable changes; an array is assigned element by element",
    "BadReturn": "write return; in a void function, and return with a value in each other one",
    "NoBody": "every function but in_word and out_word is defined in this text: there is no linker and no library",
    "NoMain": "write int main(void) { .. }: no arguments and no other type; input comes by in_word()",
    "FrameTooLarge": "move locals to file scope, or make several functions of this one",
    "TooManyBlocks": "make loops of what is written out, and tables of long chains of if or case",
    "StoreTooLarge": "make arrays shorter; a function that calls itself, in turn or alone, takes room for 257 calls at once",
    "BadLength": "a longer array is cut into several, or two values are packed in a word",
    "CaseTwice": "cases are compared as words: 16 and 0x10, or -1 and 0xffffffff, are the same",
    "ArgCount": "there are no default arguments and no lists of any length",
    "VoidUsed": "give the function the type int and return a value",
    "BreakOutside": "to leave a function take return",
    "TooManyInitialisers": "make the array longer, or leave the length out: a[] = { .. }",
    "NotAFunction": "a variable or a parameter of this name hides the function, or there is none",
    "NotAnArray": "there are no pointers: only an array at file scope has elements",
    "NotScalar": "arrays and functions cannot be passed, assigned or compared: pass an index",
    "PrototypeDiffers": "compare the types, const aside, and the number of the parameters with the first declaration",
    "CommentOpen": "comments do not nest: the first */ ends one",
}

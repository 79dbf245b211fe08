"""Names for the functions of an image. An image has none: they are guessed from the source, and marked as such."""
from view import tool

GUESSED = "names of functions are guessed from the source: only the calls were compared"
UNNAMED = "functions have no names in an image; --source SRC lets them be guessed"
UNMATCHED = "the calls of the source and of the image do not match: no names are guessed"
START = "(start)"


def of_source(path):
    """Of each function with a body, in the order of the text: its line and the functions that it calls. Empty where it can't be read."""
    from pycparser import c_ast, c_parser
    from view import order
    text = tool.read_bytes(path).decode("utf-8", "replace")
    try:
        tree = c_parser.CParser().parse(order.bare(text))
    except Exception:
        return {}
    functions = order.Functions()
    functions.visit(tree)
    lines = {item.decl.name: item.decl.coord.line for item in tree.ext if isinstance(item, c_ast.FuncDef)}
    return {name: (line, functions.calls[name]) for name, line in lines.items()}


def reached(source):
    """The functions that main reaches, in the order of the text."""
    seen, open_ones = set(), ["main"]
    while open_ones:
        name = open_ones.pop()
        if name in source and name not in seen:
            seen.add(name)
            open_ones += source[name][1]
    return [name for name in source if name in seen]


def matches(names, structure, source):
    """Whether the functions call each other in the image as they do in the source."""
    by_name = {name: address for address, name in names.items()}
    for address, called in structure.calls().items():
        if names[address] == START:
            continue
        wanted = {by_name[name] for name in source[names[address]][1] if name in by_name}
        if not called <= wanted:
            return False
    return True


def of_image(structure, path):
    """The names of the functions of an image by their addresses, and what is to be said of them."""
    entry = structure.image.entry
    if path is None:
        return {entry: START}, UNNAMED
    try:
        source = of_source(path)
    except ImportError:
        return {entry: START}, "pycparser is not installed: no names are guessed"
    main = sorted(structure.calls()[entry])
    rest = [address for address in structure.functions if address != entry and address not in main]
    for listed in (reached(source), list(source)):
        others = [name for name in listed if name != "main"]
        if len(main) == 1 and "main" in listed and len(others) == len(rest):
            names = {entry: START, main[0]: "main", **dict(zip(rest, others))}
            if matches(names, structure, source):
                return names, GUESSED
    return {entry: START}, UNMATCHED


def shown(names, address):
    """A function's name, marked as guessed, or its address."""
    name = names.get(address)
    if name is None:
        return f"function at 0x{address:08x}"
    return name if name == START else f"{name}?"

"""Reads the imports of specs and proofs, and of contracts: which names they take from which modules."""
import re

# the indentation and the words before it, the module, the list of names, and the end
IMPORT = re.compile(r"( *)((?:pub |ghost )?use )([^\s{};]+)\.\{(.*)\}(;?)", re.M)


def split_list(text):
    """Splits a list at the commas outside braces."""
    items, depth, start = [], 0, 0
    for at, char in enumerate(text):
        depth += (char == "{") - (char == "}")
        if char == "," and depth == 0:
            items.append(text[start:at].strip())
            start = at + 1
    return [it for it in [*items, text[start:].strip()] if it]


def names_of(module, text):
    """Yields each module that `module.{text}` imports from, with a name from it: `a.{B.c, D.{e, f}}` imports `c` from `a.B`."""
    for item in split_list(text):
        if nested := re.fullmatch(r"([^{]+)\.\{(.*)\}", item):
            yield from names_of(f"{module}.{nested[1]}", nested[2])
            continue
        path, _, renamed = item.partition(" as ")
        below, _, name = path.rpartition(".")
        yield (f"{module}.{below}" if below else module), (f"{name} as {renamed}" if renamed else name)


def imports(text, kind):
    """Yields what the imports of a kind in a text import, as `names_of` does. The kind is `ghost`, `pub`, or nothing."""
    for found in IMPORT.finditer(text):
        if found[2].split()[:-1] == kind.split():
            yield from names_of(found[3], found[4])

"""The static functions that clang inlines.

Functions with pointer parameters are always inlined, since a function doesn't know where its
pointers lead; the others by clang's choice, or never."""
import re

from fcc_ir.text import NAME, closing, first_type, is_pointer, parts


def rewrite(module, keeps):
    """Returns the module before any optimization.

    If `keeps`, static functions of numbers that are called at least twice remain functions."""
    groups = dict(re.findall(r"^attributes (#\d+) = { (.*) }$", module, re.M))
    lines = module.splitlines()
    for at, line in enumerate(lines):
        found = re.match(rf"define internal [^@]*(@{NAME})\(.*\)[^()#]* (#\d+)", line)
        if not found or {"noinline", "alwaysinline"} & set(groups.get(found[2], "").split()) and "optnone" not in groups.get(found[2], ""):
            continue
        begin = line.index("(", found.end(1))
        takes_pointers = any(is_pointer(first_type(it)) for it in parts(line[begin + 1 : closing(line, begin)]) if it)
        calls = len(re.findall(rf"{re.escape(found[1])}(?![\w.$-])", module)) - 1
        if takes_pointers:
            lines[at] = line.replace(found[2], f"alwaysinline {found[2]}", 1)
        elif keeps and calls > 1:
            lines[at] = line.replace(found[2], f"noinline {found[2]}", 1)
    return "\n".join(lines)

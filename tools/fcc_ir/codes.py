"""The codes that a run returns: the constants that lead to a function's `ret`."""
import re

from fcc_ir.text import first_type, parts, typed

KNOWN = {0, 0x44, 0x45, 0x80, 0x83, 0x84}  # FC_OK, FC_CHANGED, FC_CONTENT, FC_BAD_REQUEST, FC_FORBIDDEN, FC_NOT_FOUND


def unknown(function):
    """Returns the constants that a function returns and that are no code, in their order."""
    todo = [it[1] for line in function.lines for it in [re.match(r"  ret i\d+ ([^ ,]+)", line)] if it]
    found, seen = set(), set()
    while todo:
        one = todo.pop()
        if re.fullmatch(r"-?\d+", one):
            found.add(int(one))
        elif one in function.values and one not in seen:
            seen.add(one)
            operation, words, _ = function.values[one]
            plain = words.partition(", !")[0].strip()
            if operation == "phi":
                todo += [parts(it.strip()[1:-1])[0] for it in parts(plain[len(first_type(plain)) :])]
            elif operation == "select":
                todo += [typed(it)[1] for it in parts(plain)[1:3]]
            elif operation in ("zext", "sext"):
                todo.append(typed(re.sub(r" to [^()]*$", "", re.sub(r"^nneg ", "", plain)))[1])
    return sorted(found - KNOWN)

"""The type of the variables, from the debug information, since a pointer may not have its type in
the IR."""
import re

MOST_DEPTH = 20


def fits(module, entry, size):
    """Returns whether the type of the entry's second parameter's target has at most this many
    bytes.

    An unknown type doesn't fit; void does, if there are variables."""
    found = size_of_pointed(module, entry)
    return found is not None and max(found, 1) <= size


def size_of_pointed(module, entry):
    """Returns the bytes of the type that the entry's second parameter points to, 0 for void, None
    if that isn't known."""
    notes = dict(re.findall(r"^(!\d+) = (.*)$", module, re.M))
    function = re.search(rf"^define [^@]*@\"?{re.escape(entry)}\"?\(.*!dbg (!\d+) ", module, re.M)
    if not function:
        return None
    for it in notes.values():
        if re.match(rf"!DILocalVariable\(.*\barg: 2, scope: {function[1]}\b", it):
            pointer = strip(notes, field(it, "type"))
            if pointer and "DW_TAG_pointer_type" in pointer:
                base = field(pointer, "baseType")
                if base in (None, "null"):
                    return 0
                return bytes_of(notes, base)
    return None


def field(note, name):
    found = re.search(rf"\b{name}: (!?[\w-]+)", note)
    return found[1] if found else None


def strip(notes, name):
    """Returns a type without its names and qualifiers; None for void."""
    for _ in range(MOST_DEPTH):
        note = notes.get(name)
        if note is None or not re.search(r"DW_TAG_(typedef|const_type|volatile_type|restrict_type|atomic_type)", note):
            return note
        name = field(note, "baseType")
    return None


def bytes_of(notes, name):
    """Returns the bytes of a type; 0 for void, None if that isn't known."""
    note = strip(notes, name)
    if note is None:
        return 0
    size = field(note, "size")
    return int(size) // 8 if size and size.isdecimal() else None

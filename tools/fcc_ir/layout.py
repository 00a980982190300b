"""Sizes of LLVM's types for BPF, and the offset of an index in one.

A type that isn't known here has the size 0, and is left unchanged."""
import re

from fcc_ir.text import VALUE, first_type, is_pointer, parts, typed


class Layout:
    """The types of a module."""

    def __init__(self, module):
        self.structs = {it[1]: it[2] for it in re.finditer(rf"^({VALUE}) = type (<?{{.*}}>?)$", module, re.M)}

    def size(self, kind):
        return self.size_and_alignment(kind)[0]

    def size_and_alignment(self, kind):
        kind = self.structs.get(kind, kind)
        if re.fullmatch(r"i(8|16|32|64)", kind):
            return int(kind[1:]) // 8, int(kind[1:]) // 8
        if kind.startswith("["):
            count, inner = kind[1:-1].split(" x ", 1)
            size, alignment = self.size_and_alignment(inner)
            return int(count) * size, alignment
        if kind.startswith("{"):
            places = self.places(kind)
            if places is None:
                return 0, 1
            most = max((self.size_and_alignment(it)[1] for it in parts(kind[1:-1])), default=1)
            return -(-places[-1] // most) * most, most
        return 0, 1

    def places(self, kind):
        """Returns the offsets of a struct's fields, and at last the end of the last one; None if a
        field's size isn't known."""
        at, found = 0, []
        for it in parts(kind[1:-1]):
            size, alignment = self.size_and_alignment(it)
            if not size:
                return None
            at = -(-at // alignment) * alignment
            found.append(at)
            at += size
        return [*found, at]

    def steps(self, words):
        """Returns the parts of a getelementptr: the pointer, the constant number of bytes, and the
        indexes that aren't constants.

        Each index has its type and the bytes of a step. Returns None if a size isn't known."""
        given = parts(re.sub(r"^(?: inbounds| nuw| nusw)+", "", words.partition(", !")[0]).strip())
        kind, (pointer_kind, pointer) = given[0], typed(given[1])
        if not is_pointer(pointer_kind):
            return None
        total, computed = 0, []
        for number, (its, index) in enumerate(map(typed, given[2:])):
            if number:
                kind = self.structs.get(kind, kind)
                if kind.startswith("{"):
                    places = self.places(kind)
                    if places is None:
                        return None
                    total += places[int(index)]
                    kind = parts(kind[1:-1])[int(index)]
                    continue
                if not kind.startswith("["):
                    return None
                kind = kind[1:-1].split(" x ", 1)[1]
            size = self.size(kind)
            if not size or not re.fullmatch(r"i(8|16|32|64)", its):
                return None
            if re.fullmatch(r"-?\d+", index):
                total += int(index) * size
            else:
                computed.append((its, index, size))
        return (pointer_kind, pointer), total, computed

"""LLVM's IR as text: types, operands, functions and their blocks.

It reads both forms of pointers, `i8*` (clang 14) and `ptr` (clang 16 and later). No definition of a
numbered value is removed, since LLVM counts them; added values have a quoted name that begins with
`fc.`."""
import re

NAME = r'(?:"[^"]*"|[\w.$-]+)'
VALUE = rf"%{NAME}"
DEFINES = re.compile(rf"  ({VALUE}) = (?:tail |musttail |notail )?(\w+)(.*)")
LABEL = re.compile(rf"({NAME}):")
NOTE = re.compile(r", !dbg !\d+")
ATTRIBUTES = re.compile(
    r"^(?:(?:noundef|inbounds|nocapture|readonly|readnone|writeonly|noalias|signext|zeroext|nonnull|returned|immarg|nofree|align \d+"
    r"|dereferenceable(?:_or_null)?\(\d+\)|range\([^()]*\)|captures\([^()]*\)) )+"
)
TYPED_POINTER = re.compile(r"(?:i\d+|%struct\.[\w.]+|%union\.[\w.]+|\[[^\[\]*]*(?:\[[^\[\]*]*(?:\[[^\[\]*]*\][^\[\]*]*)*\][^\[\]*]*)*\])(?: \([^()]*\))?\*+")


def parts(words):
    """Returns a list's items, which are separated by commas outside of brackets."""
    found, depth, is_quoted = [""], 0, False
    for it in words:
        is_quoted ^= it == '"'
        if not is_quoted:
            depth += (it in "[{(<") - (it in "]})>")
        if it == "," and depth == 0 and not is_quoted:
            found.append("")
        else:
            found[-1] += it
    return [it.strip() for it in found]


def first_type(words):
    """Returns the type at the start of a text."""
    depth, at = 0, 0
    while at < len(words):
        if words[at] in "[{(<":
            depth += 1
        elif words[at] in "]})>":
            depth -= 1
        elif depth == 0 and words[at] in " ,":
            if not re.match(r" \(| \*", words[at:]):
                break
        at += 1
    return words[:at]


def typed(words):
    """Returns a type and a value, without the value's attributes."""
    kind = first_type(words)
    return kind, ATTRIBUTES.sub("", words[len(kind) :].strip())


def closing(words, at):
    """Returns the position of the bracket that closes the one at `at`."""
    depth = 0
    for it in range(at, len(words)):
        depth += (words[it] == "(") - (words[it] == ")")
        if depth == 0:
            return it
    return len(words)


def is_pointer(kind):
    return kind == "ptr" or kind.endswith("*")


def is_opaque(module):
    """Returns whether the module's pointers are `ptr`."""
    for line in module.split("\n"):
        if line.startswith(("define ", "declare ", "  ")) and not line.startswith("    #dbg"):
            if re.search(r"(?<![\w%@.$\"-])ptr(?![\w.$\"-])", line.partition(", !")[0]):
                return True
            if re.search(r"[\w\])}]\*", line.partition(", !")[0]):
                return False
    return True


def without_types(text):
    """Returns text of ours, which is written with typed pointers, for a module with opaque ones."""
    before = None
    while before != text:
        before, text = text, TYPED_POINTER.sub("ptr", text)
    return text


def quoted(value, prefix):
    """Returns a name of ours that belongs to a value: `%"fc.o.7"` for `%7` and `o`."""
    return f'%"fc.{prefix}.' + value.strip('%"') + '"'


class Function:
    """A function's lines, with its values and blocks."""

    def __init__(self, lines):
        self.lines = lines
        self.name = re.search(rf"@({NAME})\(", lines[0])[1].strip('"')
        head = lines[0][lines[0].index(f"@") :]
        inside = head[head.index("(") + 1 : closing(head, head.index("("))]
        self.parameters = [(first_type(it), it.split()[-1]) for it in parts(inside) if it and it != "..."]
        self.values, self.block_of, self.lines_of = {}, {}, {}  # by a value: its operation, the rest of its line, and the line's place
        block = None
        for at, line in enumerate(lines[1:-1], 1):
            label = LABEL.match(line)
            if label or block is None:
                block = label[1].strip('"') if label else "entry"
                self.lines_of[block] = []
            self.block_of[at] = block
            self.lines_of[block].append(at)
            found = DEFINES.match(line)
            if found:
                self.values[found[1]] = found[2], found[3], at
        self.first = next(iter(self.lines_of))
        self.after = {name: self.leads(name) for name in self.lines_of}
        self.note = next((it[0] for it in map(NOTE.search, lines[1:]) if it), "")

    def leads(self, name):
        """Returns the successors of a block, in the order of its last instruction."""
        found = []
        for at in self.lines_of[name]:
            if not DEFINES.match(self.lines[at]):
                found += [it.strip('"') for it in re.findall(rf"label %({NAME})", self.lines[at])]
        return [it for it in found if it in self.lines_of]

    def reached(self, name):
        """Returns the blocks that can be reached from one, by one jump or more."""
        found, todo = set(), list(self.after[name])
        while todo:
            one = todo.pop()
            if one not in found:
                found.add(one)
                todo += self.after[one]
        return found

    def dominators(self):
        """Returns the dominators of a block, including itself, for reachable blocks only."""
        order = [self.first, *(it for it in self.lines_of if it in self.reached(self.first) and it != self.first)]
        before = {it: [way for way in order if it in self.after[way]] for it in order}
        above, changes = {it: set(order) for it in order}, True
        above[self.first] = {self.first}
        while changes:
            changes = False
            for it in order[1:]:
                now = {it} | set.intersection(*(above[way] for way in before[it]))
                changes |= now != above[it]
                above[it] = now
        return above

    def loops(self):
        """Returns the natural loops: for each head the blocks that lead back to it, and all blocks
        inside.

        Returns None if a loop has two entries."""
        above, found = self.dominators(), {}
        for name in above:
            for to in self.after[name]:
                if to in above[name]:
                    backs, within = found.setdefault(to, ([], {to}))
                    backs.append(name)
                    todo = [name]
                    while todo:
                        one = todo.pop()
                        if one not in within:
                            within.add(one)
                            todo += [it for it in above if one in self.after[it]]
        return found

    def note_at(self, at):
        """Returns the line in C of an instruction, as debug information for the instructions that
        replace it."""
        found = NOTE.search(self.lines[at])
        return found[0] if found else self.note


def functions_of(module):
    """Yields the module's lines: a Function for each function, and the other lines as they are."""
    lines, at = module.splitlines(), 0
    while at < len(lines):
        if lines[at].startswith("define "):
            end = lines.index("}", at)
            yield Function(lines[at : end + 1])
            at = end + 1
        else:
            yield lines[at]
            at += 1


def joined(found):
    """Returns a module from lines and functions."""
    return "\n".join([*(line for it in found for line in (it.lines if isinstance(it, Function) else [it])), ""])

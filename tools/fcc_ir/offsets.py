"""Offsets of pointers.

Each pointer that leads into one known object has an offset, a number of bytes from the object's
start. It is computed together with the pointer by the same steps: additions for a getelementptr,
and a phi or a select of offsets for a phi or a select of pointers. A null pointer's offset is NULL.

Known objects are the parameters of the function at which a run starts, the query and the payload by
their names (regions.py), local variables, and constants. A pointer that may lead into two objects,
or that comes from elsewhere, has no offset, and is left unchanged."""
import re

from fcc_ir.regions import FIELDS, MARK
from fcc_ir.text import NAME, first_type, is_pointer, parts, quoted, typed

REQUEST, QUERY, PAYLOAD, VARIABLES, READINGS, ROOM, TABLE = "request", "query", "payload", "variables", "readings", "room", "table"
SIZES = {REQUEST: 1104, QUERY: 64, PAYLOAD: 1024, READINGS: 64}
PARAMETERS = {0: REQUEST, 1: VARIABLES, 3: READINGS}
MOST_WORDS = 32  # of a local variable or a constant
NULL = str(-(1 << 62))
STEPS = ("getelementptr", "bitcast", "select", "phi", "freeze")


class Region:
    """An object: its kind, its name, the type of its address in LLVM, and its size in bytes."""

    def __init__(self, kind, name, pointer, size):
        self.kind, self.name, self.pointer, self.size = kind, name, pointer, size


def constants_of(module, layout):
    """Returns the constants that have a size."""
    found = {}
    for it in re.finditer(rf"^(@{NAME}) = (?:\w+(?:\(\d+\))? )*?constant (.*)$", module, re.M):
        kind = first_type(it[2])
        size = layout.size(kind)
        if size:
            found[it[1]] = Region(TABLE, it[1], kind, size)
    return found


class Offsets:
    """The pointers of a function, the objects that they lead into, and their offsets.

    `variables` is the size of the variables, 0 if they are left unchanged."""

    def __init__(self, function, layout, constants, entry, variables):
        self.function, self.layout, self.constants = function, layout, constants
        self.regions, self.request = {}, None  # by a value's name
        if function.name == entry:
            for number, (kind, name) in enumerate(function.parameters):
                what = PARAMETERS.get(number)
                if what and is_pointer(kind) and (what != VARIABLES or variables):
                    self.regions[name] = Region(what, name, kind, SIZES.get(what, variables))
                    self.request = name if what == REQUEST else self.request
        parts_of_request = {}
        for name, (operation, words, at) in function.values.items():
            mark = MARK.match(function.lines[at])
            if mark and mark[4] == self.request:
                parts_of_request.setdefault(mark[2], Region(mark[2], mark[2], None, SIZES[mark[2]]))
                self.regions[name] = parts_of_request[mark[2]]
            elif operation == "alloca" and "," in words:
                kind = first_type(words.strip())
                size = layout.size(kind)
                if 0 < size <= 8 * MOST_WORDS and re.fullmatch(r" align \d+", words.partition(",")[2].partition(", !")[0]):
                    self.regions[name] = Region(ROOM, name, kind, size)
        self.offsets, self.todo = {}, []
        self.find()

    def operands(self, value):
        """Returns the pointers from which one is computed, each with its type; None if it is
        computed otherwise."""
        operation, words, _ = self.function.values[value]
        words = words.partition(", !")[0]
        if operation == "getelementptr":
            steps = self.layout.steps(words)
            return steps and [steps[0]]
        if operation == "bitcast":
            return [typed(re.sub(r" to [^()]*$", "", words.strip()))]
        if operation == "freeze":
            return [typed(words.strip())]
        if operation == "select":
            return [typed(it) for it in parts(words)[1:3]]
        if operation == "phi":
            kind = first_type(words.strip())
            return [(kind, parts(it[1:-1])[0]) for it in parts(words.strip()[len(kind) :])]
        return None

    def constant(self, operand):
        """Returns the constant that an address without a value leads into, and the offset; None if
        that isn't known."""
        if operand in self.constants:
            return self.constants[operand], 0
        inside = re.match(r"(bitcast|getelementptr(?: inbounds| nuw)*) \((.*)\)$", operand)
        if not inside:
            return None
        if inside[1] == "bitcast":
            return self.constant(typed(re.sub(r" to [^()]*$", "", inside[2]))[1])
        steps = self.layout.steps(inside[2])
        within = steps and not steps[2] and self.constant(steps[0][1])
        return (within[0], within[1] + steps[1]) if within else None

    def root(self, operand):
        """Returns the object that a pointer leads into; False if that isn't known, None if any is
        possible."""
        if operand in self.regions:
            return self.regions[operand]
        if operand in ("undef", "poison", "null"):
            return None
        if operand in self.function.values:
            return self.roots.get(operand)
        found = self.constant(operand)
        return found[0] if found else False

    def find(self):
        """Finds the object of each pointer, in rounds until none changes."""
        pointers, self.roots = {}, {}
        for name, (operation, _, _) in self.function.values.items():
            if name in self.regions:
                continue
            given = self.operands(name) if operation in STEPS else None
            if given and all(is_pointer(kind) for kind, _ in given):
                pointers[name] = [it for _, it in given]
            else:
                self.roots[name] = False
        changes = True
        while changes:
            changes = False
            for name, given in pointers.items():
                found = {self.root(it) for it in given} - {None}
                now = None if not found else found.pop() if len(found) == 1 else False
                changes |= self.roots.get(name) != now
                self.roots[name] = now

    def is_computed(self, value, seen=()):
        """Returns whether a pointer depends on more than its object."""
        if value in self.regions or value not in self.function.values or value in seen:
            return False
        operation, words, _ = self.function.values[value]
        if operation in ("phi", "select"):
            return True
        if operation == "getelementptr" and self.layout.steps(words)[2]:
            return True
        return any(self.is_computed(it, (*seen, value)) for _, it in self.operands(value) or [])

    def place(self, pointer):
        """Returns a pointer's offset if that is a constant, and otherwise None."""
        if pointer in self.regions:
            return 0
        if pointer not in self.function.values:
            found = self.constant(pointer)
            return found[1] if found else None
        operation, words, _ = self.function.values[pointer]
        if operation == "getelementptr":
            (_, base), total, computed = self.layout.steps(words)
            before = None if computed else self.place(base)
            return None if before is None else before + total
        return self.place(self.operands(pointer)[0][1]) if operation in ("bitcast", "freeze") else None

    def offset(self, operand):
        """Returns an operand that is the offset of a pointer whose object is known."""
        if operand in self.regions or operand in ("undef", "poison"):
            return "0"
        if operand == "null":
            return NULL
        if operand not in self.function.values:
            return str(self.constant(operand)[1])
        if operand not in self.offsets:
            self.offsets[operand] = quoted(operand, "o")
            self.todo.append(operand)
        return self.offsets[operand]

    def beside(self):
        """Returns, by a line's place, the lines after it that compute the requested offsets."""
        found = {}
        while self.todo:
            name = self.todo.pop()
            found[self.function.values[name][2]] = self.computed(name)
        return found

    def computed(self, name):
        """Returns the lines that compute a pointer's offset."""
        operation, words, _ = self.function.values[name]
        new, plain = self.offsets[name], words.partition(", !")[0]
        if operation in ("bitcast", "freeze"):
            return [f"  {new} = add i64 {self.offset(self.operands(name)[0][1])}, 0"]
        if operation == "getelementptr":
            return self.added(new, self.layout.steps(words))
        if operation == "select":
            first, second = (self.offset(it) for _, it in self.operands(name))
            return [f"  {new} = select {parts(plain)[0]}, i64 {first}, i64 {second}"]
        kind = first_type(plain.strip())
        ways = [parts(it[1:-1]) for it in parts(plain.strip()[len(kind) :])]
        return [f"  {new} = phi i64 " + ", ".join(f"[ {self.offset(it)}, {way} ]" for it, way in ways)]

    def added(self, new, steps):
        """Returns the lines that add a getelementptr's bytes to its pointer's offset."""
        (_, base), total, computed = steps
        inner, made, now = new[:-1], [], self.offset(base)
        for number, (kind, index, size) in enumerate(computed):
            if kind != "i64":
                made.append(f'  {inner}.x{number}" = sext {kind} {index} to i64')
                index = f'{inner}.x{number}"'
            made.append(f'  {inner}.m{number}" = mul i64 {index}, {size}')
            made.append(f'  {inner}.a{number}" = add i64 {now}, {inner}.m{number}"')
            now = f'{inner}.a{number}"'
        return [*made, f"  {new} = add i64 {now}, {total}"]

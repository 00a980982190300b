"""Bounds of loops that C itself gives, by the accesses of objects or by a number that becomes zero.

Suppose that each complete iteration accesses an object, at a place that increases or decreases by a
number of bytes in each iteration. The access can't be made more often than the object has such
places.

A loop is bounded here if a load or store in a block that each complete iteration passes leads into
an object of known size (offsets.py). Its offset has to be a multiple of a number at the loop's head
plus a value that the loop doesn't change. That number increases by at least one in each iteration,
or decreases by at least one, and by less than 2^20. A run with more iterations would leave the
object, which C doesn't define; it is ended by 5.00 (turns.py).

A loop is bounded too if each of its exits is tested in each iteration, by a computation on one
number at its head alone. Each iteration has to multiply that number by an even constant, or divide
it by a constant of at least 2: it is 0 in the end, and from then on each test has the same result.
A run with more iterations would never end; it is ended by 5.00 as well."""
import re
from typing import NamedTuple

from fcc_ir.accesses import ACCESS
from fcc_ir.offsets import STEPS
from fcc_ir.text import NAME, VALUE, first_type, parts, typed

MOST_STEP = 1 << 20
BRANCH = re.compile(rf"  br i1 ({VALUE}), label %{NAME}, label %{NAME}")
PURE = ("add", "sub", "mul", "shl", "lshr", "ashr", "and", "or", "xor", "udiv", "urem", "sdiv", "srem", "icmp", "zext", "sext", "trunc", "freeze", "select")


class Line(NamedTuple):
    """A number at the loop's head times a factor, plus a value that the loop doesn't change.

    It is exact modulo 2 ^ width. Without a number at the head, it is the unchanged value alone.
    That value is `more`, or None if it isn't a constant; for a pointer it is an offset."""

    phi: object
    factor: int
    width: int
    more: object


def bits(kind):
    """Returns the bits of a number of this type; 64 for a pointer."""
    return int(kind[1:]) if re.fullmatch(r"i\d+", kind) else 64


def narrow(line, width):
    return line and line._replace(width=max(0, min(line.width, width)))


def times(line, by):
    return line and line._replace(factor=line.factor * by, more=None if line.more is None else line.more * by) if by else None


def total(left, right):
    if left is None or right is None or left.phi and right.phi:
        return None
    one, other = (left, right) if left.phi else (right, left)
    return one._replace(width=min(one.width, other.width), more=None if None in (one.more, other.more) else one.more + other.more)


class Bounds:
    def __init__(self, function, offsets):
        self.function, self.offsets = function, offsets
        self.above, self.loops = function.dominators(), function.loops()

    def found(self):
        """Returns, by a loop's head, how often it is reached at most."""
        found = {}
        for head, (backs, within) in self.loops.items():
            always = set.intersection(*(self.above[it] for it in backs)) & within
            counts = [it for name in always for at in self.function.lines_of[name] for it in [self.count(at, head, backs, within)] if it]
            counts += [it for it in [self.until_zero(head, backs, within, always)] if it]
            if counts:
                found[head] = min(counts)
        return found

    def until_zero(self, head, backs, within, always):
        """Returns how often the loop's head is reached at most if a number there becomes 0; None if
        that isn't known.

        Nothing else may decide whether the loop ends."""
        exits = [name for name in within if not set(self.function.after[name]) <= within]
        tests = [it[1] for name in exits for at in self.function.lines_of[name] for it in [BRANCH.match(self.function.lines[at])] if it]
        if not exits or not set(exits) <= always or len(tests) != len(exits):
            return None
        asked = [self.asked(it, head, within) for it in tests]
        if None in asked or len(set().union(*asked)) != 1:
            return None
        phi = set().union(*asked).pop()
        _, words, _ = self.function.values[phi]
        plain = words.partition(", !")[0].strip()
        kind = first_type(plain)
        ways = [parts(it.strip()[1:-1]) for it in parts(plain[len(kind) :])]
        turns = [self.turns_to_zero(value, phi, bits(kind)) for value, way in ways if way.strip('%"') in backs]
        return None if None in turns or not re.fullmatch(r"i\d+", kind) else max(turns) + 1

    def turns_to_zero(self, value, phi, width):
        """Returns after how many iterations a number of this many bits is 0, if each makes this
        value of it.

        Returns None if that isn't known."""
        operation, words, _ = self.function.values.get(value, (None, "", 0))
        found = re.match(r" (?:(?:nuw|nsw|exact) )*i\d+ ([^ ,]+), (\d+)", words)
        if not found or found[1] != phi:
            return None
        number = int(found[2])
        if operation in ("shl", "lshr"):
            return -(-width // number) if 0 < number < width else None
        if operation == "mul":
            zeros = (number & -number).bit_length() - 1
            return -(-width // zeros) if zeros > 0 else None
        return next(it for it in range(1, width + 1) if number**it >> width) if operation == "udiv" and number > 1 else None

    def asked(self, operand, head, within, depth=8):
        """Returns the numbers at the loop's head from which an operand is computed, apart from
        values that the loop doesn't change.

        Returns None if it is computed otherwise."""
        if self.is_outside(operand, within):
            return set()
        operation, words, at = self.function.values[operand]
        if operation == "phi" and self.function.block_of[at] == head:
            return {operand}
        if operation not in PURE or not depth:
            return None
        found = [self.asked(it, head, within, depth - 1) for it in re.findall(VALUE, words.partition(", !")[0])]
        return None if None in found else set().union(*found)

    def count(self, at, head, backs, within):
        """Returns how often the loop's head is reached at most, by the access at a line; None if
        that isn't known."""
        access = ACCESS.match(self.function.lines[at])
        if not access:
            return None
        given = parts(access[3].partition(", !")[0])
        kind, pointer = (given[0] if access[2] == "load" else typed(given[0])[0]), typed(given[1])[1]
        whole, size = self.size(pointer, set()), self.offsets.layout.size(kind)
        line = self.line(pointer, head, within)
        if not whole or not size or whole < size or not line or line.phi is None:
            return None
        step, late = self.step(line.phi, backs, within), 0
        if step is None:
            leader = self.leader(line.phi, head, backs)  # an iteration later it has the value of another number at the head
            step, late = (self.step(leader, backs, within), 1) if leader else (None, 0)
        if step is None or whole + abs(step * line.factor) >= 1 << line.width:
            return None  # a number of few bits may wrap
        first = self.first(line, backs) if step * line.factor > 0 and not late else 0
        is_at_head = self.function.block_of[at] == head  # otherwise the last time at the head may be without the access
        return (whole - size - first) // abs(step * line.factor) + 2 - is_at_head + late

    def first(self, line, backs):
        """Returns the offset of the first access, if that is a small constant, and otherwise 0.

        No access is before it if the offset increases."""
        _, words, _ = self.function.values[line.phi]
        plain = words.partition(", !")[0].strip()
        entering = {value for value, way in (parts(it.strip()[1:-1]) for it in parts(plain[len(first_type(plain)) :])) if way.strip('%"') not in backs}
        one = entering.pop() if len(entering) == 1 else ""
        if line.more is None or not one.isdecimal():
            return 0
        return max(0, min(int(one) * line.factor + line.more, MOST_STEP))

    def size(self, pointer, seen):
        """Returns the bytes of the largest object that a pointer may lead into; None if one isn't
        known.

        `seen` has the pointers that were examined already."""
        region = self.offsets.root(pointer)
        if region is not False:
            return region.size if region else 0
        given = self.offsets.operands(pointer) if pointer in self.function.values and self.function.values[pointer][0] in STEPS else None
        if given is None:
            return None
        seen.add(pointer)
        found = [self.size(it, seen) for _, it in given if it not in seen]
        return None if None in found else max(found, default=0)

    def leader(self, phi, head, backs):
        """Returns the number at the same head that has this one's value an iteration later, or
        None."""
        _, words, _ = self.function.values[phi]
        plain = words.partition(", !")[0].strip()
        found = {value for value, way in (parts(it.strip()[1:-1]) for it in parts(plain[len(first_type(plain)) :])) if way.strip('%"') in backs}
        one = found.pop() if len(found) == 1 else None
        is_phi = one in self.function.values and self.function.values[one][0] == "phi" and self.function.block_of[self.function.values[one][2]] == head
        return one if is_phi and one != phi else None

    def is_outside(self, operand, within):
        found = self.function.values.get(operand)
        return not found or self.function.block_of[found[2]] not in within

    def line(self, operand, head, within):
        """Returns an operand as a Line; None if it isn't one."""
        if self.is_outside(operand, within):
            number = int(operand) if re.fullmatch(r"-?\d+", operand) else None
            return Line(None, 0, 64, self.offsets.place(operand) if number is None and self.offsets.root(operand) else number)
        operation, words, at = self.function.values[operand]
        plain = words.partition(", !")[0].strip()
        if operation == "phi":
            return Line(operand, 1, bits(first_type(plain)), 0) if self.function.block_of[at] == head else None
        if operation in ("bitcast", "freeze", "zext", "sext", "trunc"):
            kind, inner = typed(re.sub(r"^(?:(?:nneg|nuw|nsw) )+", "", re.sub(r" to [^()]*$", "", plain)))
            width = bits(plain.rpartition(" to ")[2]) if operation == "trunc" else bits(kind)
            return narrow(self.line(inner, head, within), width)
        if operation == "and":
            left, right = parts(plain)
            mask = int(right) if right.isdecimal() else 0
            return narrow(self.line(typed(left)[1], head, within), mask.bit_length()) if mask and mask & (mask + 1) == 0 else None
        if operation == "getelementptr":
            steps = self.offsets.layout.steps(words)
            if not steps:
                return None
            found = self.line(steps[0][1], head, within)
            for kind, index, size in steps[2]:
                found = total(found, times(narrow(self.line(index, head, within), bits(kind)), size))
            return total(found, Line(None, 0, 64, steps[1]))
        if operation in ("add", "sub", "mul", "shl") or operation == "or" and plain.startswith("disjoint "):
            left, right = parts(re.sub(r"^(?:(?:nuw|nsw|disjoint) )+", "", plain))
            kind, left = typed(left)
            first, second = self.line(left, head, within), self.line(right, head, within)
            if operation in ("add", "or"):
                return narrow(total(first, second), bits(kind))
            if operation == "sub":
                return narrow(total(first, times(second, -1)), bits(kind))
            if re.fullmatch(r"\d+", right) and int(right) < 1 << 16:
                by = int(right) if operation == "mul" else 1 << int(right) if int(right) < 16 else 0
                return times(narrow(first, bits(kind) - by.bit_length()), by)
        return None

    def step(self, phi, backs, within):
        """Returns by how much a value at the loop's head increases at least in each iteration;
        negative if it decreases.

        Returns None if that isn't known, or if the value may stay."""
        _, words, _ = self.function.values[phi]
        plain = words.partition(", !")[0].strip()
        kind = first_type(plain)
        least, most = [], []
        for it in parts(plain[len(kind) :]):
            value, way = parts(it.strip()[1:-1])
            if way.strip('%"') in backs:
                found = self.away(value, phi, within, ())
                if found is None:
                    return None
                least.append(found[0])
                most.append(found[1])
        if not least or max(map(abs, least + most)) >= MOST_STEP:
            return None
        return min(least) if min(least) > 0 else max(most) if max(most) < 0 else None

    def away(self, operand, phi, within, seen):
        """Returns the ends of the difference of an operand and a value at the loop's head; None if
        they aren't known."""
        if operand == phi:
            return 0, 0
        if operand in seen or self.is_outside(operand, within):
            return None
        operation, words, _ = self.function.values[operand]
        plain, seen = words.partition(", !")[0].strip(), (*seen, operand)
        if operation in ("phi", "select"):
            given = [parts(it.strip()[1:-1])[0] for it in parts(plain[len(first_type(plain)) :])] if operation == "phi" else [typed(it)[1] for it in parts(plain)[1:3]]
            found = [self.away(it, phi, within, seen) for it in given]
            return None if None in found else (min(it[0] for it in found), max(it[1] for it in found))
        if operation == "getelementptr":
            steps = self.offsets.layout.steps(words)
            before = steps and self.away(steps[0][1], phi, within, seen)
            if before is None or not steps:
                return None
            ranges = [self.range(index, within, size) for _, index, size in steps[2]]
            return None if None in ranges else (before[0] + steps[1] + sum(it[0] for it in ranges), before[1] + steps[1] + sum(it[1] for it in ranges))
        if operation == "add" or operation == "or" and plain.startswith("disjoint "):
            left, right = parts(re.sub(r"^(?:(?:nuw|nsw|disjoint) )+", "", plain))
            for one, other in ((typed(left)[1], right), (right, typed(left)[1])):
                before, range_of = self.away(one, phi, within, seen), self.range(other, within, 1)
                if before is not None and range_of is not None:
                    return before[0] + range_of[0], before[1] + range_of[1]
        return None

    def range(self, operand, within, times):
        """Returns the ends of an operand times a number: for constants, and for values computed
        from at most 16 bits."""
        if re.fullmatch(r"-?\d+", operand):
            return int(operand) * times, int(operand) * times
        operation, words, _ = self.function.values.get(operand, (None, "", 0))
        small = re.match(r" (?:nneg )?i(8|16) ", words) if operation == "zext" else None
        mask = re.search(r", (\d+)$", words.partition(", !")[0]) if operation == "and" else None
        if small:
            return 0, ((1 << int(small[1])) - 1) * times
        return (0, int(mask[1]) * times) if mask else None

"""Functions that call themselves, written out as one function for each level.

An image has no recursion. A static function that divides its parameter before each call is written
out. It has to have one call of itself, and no loop; the call's argument is one of its parameters,
divided by a constant of at least 2. The call has to be made only if that parameter, an unsigned
number or one that isn't negative, is above a constant. So `if (n >= 10) put(n / 10);` of 32 bits
has ten levels. The parameter is small at the last level, and its call, which isn't reached, is
omitted."""
import re
from typing import NamedTuple

from fcc_ir.text import NAME, VALUE, Function, closing, functions_of, joined, parts, typed

MOST_LEVELS = 40
SELF = re.compile(rf"  (?:({VALUE}) = )?(?:tail )?call ([^@]*)@({NAME})\((.*)")
BRANCH = re.compile(rf"  br i1 ({VALUE}), label %({NAME}), label %({NAME})")
HOLDS = {"ugt": (0, False), "uge": (-1, False), "sgt": (0, True), "sge": (-1, True)}  # if it holds: the number to add to the constant that is exceeded; whether it is signed
FAILS = {"ult": (-1, False), "ule": (0, False), "slt": (-1, True), "sle": (0, True)}


class Above(NamedTuple):
    """A parameter is above a constant: as an unsigned number, or as a signed one, which isn't
    negative then."""

    name: str
    number: int
    by_sign: bool


def rewrite(module):
    """Returns the module with its recursive functions written out; None if there is none."""
    groups, found, is_changed = dict(re.findall(r"^attributes (#\d+) = { (.*) }$", module, re.M)), [], False
    for it in functions_of(module):
        levels = written_out(it, groups) if isinstance(it, Function) else None
        is_changed |= levels is not None
        found += levels or [it]
    return joined(found) if is_changed else None


def written_out(function, groups):
    """Returns the functions of all levels; None if this one is left unchanged."""
    head = re.match(r"define internal .*\)[^()]* (#\d+)", function.lines[0])
    calls = [at for at, line in enumerate(function.lines) if re.search(rf"@{re.escape(function.name)}(?![\w.$-])", line) and at]
    if not head or len(calls) != 1 or {"noinline", "alwaysinline", "optnone"} & set(groups.get(head[1], "").split()) or function.loops():
        return None
    call = SELF.match(function.lines[calls[0]])
    if not call or call[3] != function.name:
        return None
    count = levels(function, calls[0], call)
    return count and [Function(level(function, calls[0], call, it, count, head[1])) for it in range(count)]


def levels(function, at, call):
    """Returns the greatest number of levels; None if that isn't known."""
    given = parts(call[4][: closing("(" + call[4], 0) - 1])
    for (kind, name), operand in zip(function.parameters, given):
        by = divisor(function, typed(operand)[1], name)
        above = next((it for it in conditions(function, function.block_of[at]) if it.name == name), None)
        if re.fullmatch(r"i\d+", kind) and by and above and above.number >= 0 and (by[1] == above.by_sign or not by[1]):
            most, count = (1 << int(kind[1:]) - above.by_sign) - 1, 1
            while most > above.number:
                most, count = most // by[0], count + 1
            return count if count <= MOST_LEVELS else None
    return None


def divisor(function, operand, parameter):
    """Returns the constant by which an operand is the parameter divided, and whether it is signed;
    None for any other operand."""
    operation, words, _ = function.values.get(operand, (None, "", 0))
    found = re.match(r" (?:exact )?i\d+ (\S+), (\d+)", words)
    if not found or found[1] != parameter:
        return None
    number = 1 << int(found[2]) if operation == "lshr" and int(found[2]) < 64 else int(found[2]) if operation in ("udiv", "sdiv") else 0
    return (number, operation == "sdiv") if number > 1 else None


def conditions(function, block):
    """Yields the conditions on parameters at each block's start, by the branches that lead
    there."""
    before = {it: [way for way in function.after if it in function.after[way]] for it in function.after}
    for name in function.dominators().get(block, ()):
        for way in before[name] if len(before[name]) == 1 else ():
            branch = next((it for at in function.lines_of[way] for it in [BRANCH.match(function.lines[at])] if it), None)
            operation, words, _ = function.values.get(branch[1], (None, "", 0)) if branch else (None, "", 0)
            compared = re.match(r" (?:samesign )?(\w+) i\d+ (\S+), (-?\d+)", words) if operation == "icmp" else None
            if compared and branch[2] != branch[3]:
                yield from exceeded(compared, branch[2].strip('"') == name)


def exceeded(compared, holds):
    code, name, number = compared[1], compared[2], int(compared[3])
    if code in ("eq", "ne") and number == 0 and holds == (code == "ne"):
        yield Above(name, 0, False)
    elif code in (HOLDS if holds else FAILS):
        more, by_sign = (HOLDS if holds else FAILS)[code]
        yield Above(name, number + more, by_sign)


def level(function, at, call, number, count, group):
    """Returns the lines of a level: the first has the function's own name and its debug
    information."""
    lines, next_name = list(function.lines), f'"fc.level.{number + 1}.{function.name}"'
    if number + 1 < count:
        lines[at] = lines[at].replace(f"@{function.name}(", f"@{next_name}(", 1)
    elif call[1]:
        lines[at] = f"  {call[1]} = add {returned(call[2])} 0, 0"
    else:
        del lines[at]
    if not number:
        return lines
    lines = [re.sub(r", !dbg !\d+| !dbg !\d+", "", it) for it in lines if "@llvm.dbg." not in it and "#dbg_" not in it]
    lines[0] = lines[0].replace(f"@{function.name}(", f'@"fc.level.{number}.{function.name}"(', 1).replace(f" {group}", f" alwaysinline {group}", 1)
    return lines


def returned(words):
    """Returns the type before a call's function."""
    return re.search(r"(i\d+) $", words)[1]

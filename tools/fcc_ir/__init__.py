"""Rewrites of LLVM's IR, as text, between clang's optimizer and its code generator, for tools/fcc.

| Module      | Subject |
|-------------|---------|
| text.py     | types, operands, functions, blocks, loops; typed pointers of clang 14 and opaque ones of clang 16 and later |
| layout.py   | sizes of types, and the offsets of indexes |
| regions.py  | names for the query and the payload while clang optimizes |
| library.py  | memcmp, memcpy, memset and strlen as loops |
| recursion.py | functions that call themselves, as a function for each level |
| division.py | signed division as the machine's instruction |
| offsets.py  | the object that a pointer leads into, and the offset |
| helpers.py  | functions that load, store and reply by an offset |
| accesses.py | loads, stores, comparisons and replies by offsets |
| state.py    | whether the variables are as large as their type |
| bounds.py   | the number of iterations of a loop that C itself allows |
| turns.py    | counters for loops |
| codes.py    | the codes that a run returns |
| inlining.py | the static functions that clang inlines |

Each leaves unknown forms unchanged. tests/fcc has cases for each, and runs random programs with
each alone."""
import re

from fcc_ir import division, library, regions
from fcc_ir.accesses import ALL, COMPUTED, LOOPS, Rewriting
from fcc_ir.bounds import Bounds
from fcc_ir.helpers import Helpers, with_lines
from fcc_ir.layout import Layout
from fcc_ir.offsets import Offsets, constants_of
from fcc_ir.text import NAME, Function, functions_of, is_opaque, joined
from fcc_ir.turns import guarded

__all__ = ["ALL", "COMPUTED", "LOOPS", "library", "regions", "division", "entry_of", "rewrite"]


def entry_of(module, name):
    """Returns the name of the function at which a run starts."""
    found = re.findall(rf"^define (?!internal )[^@]*@({NAME})\(", module, re.M)
    return name or (found[0] if len(found) == 1 else "run")


def bounds_of(function, offsets, turns):
    """Returns, by a loop's head, how often it is reached at most: by C, or by a number of
    iterations if that is less."""
    found = Bounds(function, offsets).found()
    return found if turns == "by objects" else {head: min(turns + 1, found.get(head, turns + 1)) for head in function.loops()}


def rewrite(module, entry, where, variables, turns, divides=False):
    """Returns the module without signed divisions, with the accesses of `where` by offsets, and
    with its loops counted.

    If `turns` is a number, each loop of the entry is counted, to that number or to the bound by C,
    if that is less. If it is "by objects", those that C bounds are counted; if it is None, none.
    The variables have this many bytes, or 0 if they are unchanged. Signed divisions remain if
    clang's code generator `divides`."""
    layout, helpers = Layout(module), Helpers(is_opaque(module))
    constants, found = constants_of(module, layout), []
    for it in functions_of(module):
        if isinstance(it, Function):
            bounds = bounds_of(it, Offsets(it, layout, constants, entry, variables), turns) if turns and it.name == entry else {}
            if where:
                it = Function(Rewriting(it, layout, constants, entry, where, helpers, variables).rewritten())
            it = Function(guarded(it, bounds)) if bounds else it
        found.append(it)
    made = "\n".join([joined(found), *with_lines(helpers.made.values(), module), ""])
    made = regions.unmark(made)
    return made if divides else division.rewrite(made)

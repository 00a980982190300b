#!/usr/bin/env python3
"""Compares the output of each part of tools/fcc_ir for LLVM's IR with the cases in tests/fcc/cases.

Use: tests/fcc/cases.py [--write] [NAME..]

A case is a file. Its first line is `; PART WORD..`; the IR of the input follows, a line `; ----`,
and the IR of the output. `; left alone` in its place means that nothing changes. PART and its words
are: division; library; recursion; mark; unmark; inlining KEEPS; accesses WHERE BYTES, where BYTES
is the size of the variables; turns N; bounds, whose output is the heads of loops and how often each
is reached at most. With --write the outputs are written again: read them before you commit them."""
import sys
from pathlib import Path

HERE = Path(__file__).resolve().parent
sys.dont_write_bytecode = True
sys.path.insert(0, str(HERE.parent.parent / "tools"))
from fcc_ir import Layout, division, inlining, library, recursion, regions, text  # noqa: E402
from fcc_ir.accesses import Rewriting  # noqa: E402
from fcc_ir.bounds import Bounds  # noqa: E402
from fcc_ir.helpers import Helpers  # noqa: E402
from fcc_ir.offsets import Offsets, constants_of  # noqa: E402
from fcc_ir.turns import guarded  # noqa: E402


def accesses(module, where, size):
    """Returns the module with its accesses by offsets, and the names of the functions for that."""
    layout, helpers, found = Layout(module), Helpers(text.is_opaque(module)), []
    for it in text.functions_of(module):
        if isinstance(it, text.Function):
            it = text.Function(Rewriting(it, layout, constants_of(module, layout), "run", where, helpers, int(size)).rewritten())
        found.append(it)
    return text.joined(found) + "".join(f"; needs {it}\n" for it in helpers.made)


def turns(module, count):
    found = [text.Function(guarded(it, {head: int(count) for head in it.loops()})) if isinstance(it, text.Function) else it for it in text.functions_of(module)]
    return text.joined(found)


def bounds(module):
    layout, said = Layout(module), []
    for it in text.functions_of(module):
        if isinstance(it, text.Function):
            found = Bounds(it, Offsets(it, layout, constants_of(module, layout), "run", 64)).found()
            said += [f"; {head}: {found.get(head, 'not bounded')}" for head in it.loops()]
    return "\n".join([*said, ""])


PARTS = {
    "division": division.rewrite,
    "library": lambda module: library.rewrite(module) or module,
    "recursion": lambda module: recursion.rewrite(module) or module,
    "mark": regions.mark,
    "unmark": regions.unmark,
    "inlining": lambda module, keeps: inlining.rewrite(module, keeps == "keeps"),
    "accesses": accesses,
    "turns": turns,
    "bounds": bounds,
}


def main(words):
    writes, names, wrong = "--write" in words, [it for it in words if it != "--write"], 0
    files = [it for it in sorted((HERE / "cases").glob("*.ll")) if not names or it.stem in names]
    for file in files:
        head, _, rest = file.read_text().partition("\n")
        given, _, wanted = rest.partition("; ----\n")
        part, *more = head.lstrip("; ").split()
        made = PARTS[part](given, *more).strip()
        is_same = made == given.strip()
        if writes:
            file.write_text(f"{head}\n{given}; ----\n{'; left alone' if is_same else made}\n")
        elif not (is_same if wanted.strip() == "; left alone" else made == wanted.strip()):
            wrong += 1
            print(f"WRONG  {file.name}\n{made}")
    print(f"{len(files)} cases, {wrong} wrong")
    return bool(wrong)


if __name__ == "__main__":
    sys.exit(main(sys.argv[1:]))

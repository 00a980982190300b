#!/usr/bin/env python3
"""Compares the messages of tools/fcc with those that the programs in tests/fcc/messages require.

Use: tests/fcc/messages.py [--clang CLANG] [NAME..], at the top of the repository, whose fcasm is
built

A program's first comment has lines that its message contains, in their order, each complete; there
`..` stands for any text. A refusal has at most one line `in C: ..`, and its first line names the
program. The status is 0 if no message is wrong."""
import argparse
import re
import sys
from pathlib import Path

sys.dont_write_bytecode = True
from running import FCASM, FCC, run  # noqa: E402

PROGRAMS = Path(__file__).resolve().parent / "messages"


def is_said(wanted, lines):
    """Returns whether the lines contain the required ones, in their order."""
    rest = iter(lines)
    return all(any(re.fullmatch(".*".join(map(re.escape, it.split(".."))), one) for one in rest) for it in wanted)


def main():
    words = argparse.ArgumentParser(description=__doc__.split("\n")[0])
    words.add_argument("names", nargs="*")
    words.add_argument("--clang", default="clang")
    asked, wrong = words.parse_args(), 0
    sources = [it for it in sorted(PROGRAMS.glob("*.c")) if not asked.names or it.stem in asked.names]
    for source in sources:
        wanted = [it.strip() for it in re.match(r"/\* (.*?) \*/", source.read_text(), re.S)[1].splitlines()]
        said = run(FCC, "--clang", asked.clang, "--fcasm", FCASM, source, "-o", "/dev/null").stderr.splitlines()
        if not is_said(wanted, said) or sum(it.startswith("in C: ") for it in said) > 1 or not any(source.name in it or "warning" in it for it in said):
            wrong += 1
            print("\n".join([f"WRONG  {source.name} by {asked.clang}", *(f"       {it}" for it in said)]), flush=True)
    print(f"{asked.clang}: {len(sources)} messages, {wrong} wrong")
    return bool(wrong)


if __name__ == "__main__":
    sys.exit(main())

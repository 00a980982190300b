"""Signed division, by the machine's instruction.

clang's code generator for BPF has none before -mcpu=v4, but the machine does (RFC 9669, section
4.1: BPF_DIV and BPF_MOD with the offset 1). Each `sdiv` and `srem` of 8, 16, 32 or 64 bits becomes
that instruction of 64 bits, written as bytes.

The result is the same if C defines it. Divided by zero, the quotient is 0, and the remainder is the
dividend."""
import re

from fcc_ir.text import VALUE

DIVISION = re.compile(rf"  ({VALUE}) = (sdiv|srem)(?: exact)? (i(?:8|16|32|64)) ([^,]+), ([^,]+)((?:, !.*)?)$")
OPCODES = {"sdiv": "0x3f", "srem": "0x9f"}


def without_division(line):
    """Returns a line, or the lines that replace it."""
    found = DIVISION.match(line)
    if not found:
        return [line]
    name, operation, kind, left, right, notes = found.groups()
    new, made = '%"fc.' + name.strip('%"'), []
    is_wide = kind == "i64"
    if not is_wide:
        made += [f'  {new}.l" = sext {kind} {left} to i64', f'  {new}.r" = sext {kind} {right} to i64']
        left, right = f'{new}.l"', f'{new}.r"'
    result = name if is_wide else f'{new}.q"'
    bytes_of = f".byte {OPCODES[operation]}, 0x54, 1, 0, 0, 0, 0, 0"  # of r4 by r5
    made.append(f'  {result} = call i64 asm "{bytes_of}", "={{r4}},0,{{r5}}"(i64 {left}, i64 {right}){notes}')
    return made if is_wide else [*made, f"  {name} = trunc i64 {result} to {kind}"]


def rewrite(module):
    return "\n".join(it for line in module.split("\n") for it in without_division(line))

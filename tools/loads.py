"""Loads of payload bytes through pointers that a loop computes: the helper payload_byte replaces
them.

A loop may compute no pointer. So each pointer into the request that an iteration computes or moves
becomes a number, the byte's place in the payload. It is computed as the pointer was, from a number
with the same distance from the payload's start. Past the payload's end the helper returns 2^64 - 1
where the request has zeros, so that becomes 0. A call clears R0 to R5: values needed after it are
in R6 to R9 while the loop runs, or on the stack during the call. This is done if possible, in loops
without inner loops."""
from flow import ADD, ADD_REGISTER, CALL, FRAME, LDX, LOAD, MOVE, MOVE_REGISTER, ST, STORE_REGISTER, STX, SUBTRACT
from flow import Block, Request, is_number, is_pointer

PAYLOAD = 80  # its place in the request
LOAD_BYTE, PAYLOAD_BYTE = 0x71, 2
SUBTRACT_REGISTER, AND, AND_REGISTER, SHIFT_RIGHT = 0x1F, 0x57, 0x5F, 0x77
MOST = 1 << 31


def ask_for_bytes(rewriting):
    """Replaces the loads of a loop. Returns whether this was possible; otherwise nothing is
    changed."""
    flow, head = rewriting.flow, rewriting.loop.head
    if rewriting.inner:
        return False
    numbered = in_numbers(rewriting)
    if numbered is None:
        return False
    codes, begins = numbered
    kept, first = {name: Block(it.code, it.falls, it.jumps) for name, it in flow.blocks.items()}, flow.first
    for name, code in codes.items():
        flow.blocks[name].code = code
    before = enter(rewriting, begins)
    after = type(rewriting)(flow, head, rewriting.needs, rewriting.start, rewriting.frame)
    found = list(loads(after))
    is_asked = found and after.pointer() is None and all(is_inside(after, *it) for it in found)
    names = renamed(after, found) if is_asked else None
    if names is None:
        flow.blocks, flow.first = kept, first
        return False
    homes = {it: after.frame.take() for it in sorted({it for *_, needed in found for it in needed} - names.keys())}
    flow.homes.update(homes.values())
    flow.blocks[before].code += [after.made(MOVE_REGISTER, to=new, by=old) for old, new in names.items() if old in after.needed[head]]
    for name, block in after.blocks.items():
        saved = [next((needed for load, *_, needed in found if load is one), None) for one in block.code]
        block.code = [it for one, needed in zip(block.code, saved) for it in asked(one, names, needed, homes)]
        for to in dict.fromkeys(block.after):
            gets = [after.made(MOVE_REGISTER, to=old, by=new) for old, new in names.items() if old in after.needed[to]]
            if gets and to not in after.loop.blocks:
                block.redirect({to: flow.add(Block(gets, falls=to))})
    return True


def in_numbers(rewriting):
    """Returns the loop's code by blocks, with numbers in place of its pointers, and the numbers
    before the loop.

    Returns None if a pointer is computed from another one, or is used for anything but loading a
    byte."""
    flow, codes, made = rewriting.flow, {}, set()
    for name, block in rewriting.blocks.items():
        now = dict(rewriting.at[name])
        for one in block.code:
            flow.step(one, now)
            made |= {it for it in one.writes() if is_pointer(now.get(it))}
    begins = {it: rewriting.begins.get(it) for it in made & rewriting.needed[rewriting.loop.head]}
    if not all(isinstance(it, Request) for it in begins.values()):
        return None
    for name, block in rewriting.blocks.items():
        now, codes[name] = dict(rewriting.at[name]), []
        for one in block.code:
            is_given = one.opcode == CALL and any(it in made and is_pointer(now.get(it)) for it in one.reads(rewriting.needs))
            instead = None if is_given else in_number(one, now, made)
            if instead is None:
                return None
            codes[name].append(instead)
            flow.step(one, now)
        if any(is_pointer(now.get(it)) and it in rewriting.needed[to] for to in block.after if to not in rewriting.loop.blocks for it in made):
            return None
    return codes, {it: known.at - PAYLOAD for it, known in begins.items()}


def in_number(one, now, made):
    """Returns an instruction on numbers, in place of one that makes or uses such a pointer; None if
    unknown."""
    to, by = now.get(one.to), now.get(one.by) if one.kind == LDX or one.takes_register else None
    is_made_to, is_made_by = one.to in made and is_pointer(to), one.by in made and is_pointer(by)
    if one.kind in (ST, STX):
        return None if is_made_to or one.kind == STX and one.by in made and is_pointer(now.get(one.by)) else one
    if one.kind == LDX:
        return one if not is_made_by or one.opcode == LOAD_BYTE else None
    if one.opcode == MOVE_REGISTER and not one.offset and is_pointer(by) or one.opcode == ADD_REGISTER and is_number(to) and is_pointer(by):
        if is_made_by:
            return one
        return one.like(MOVE if one.opcode == MOVE_REGISTER else ADD, imm=by.at - PAYLOAD) if isinstance(by, Request) else None
    if is_made_to:
        moves = one.opcode in (ADD, SUBTRACT) or one.opcode in (ADD_REGISTER, SUBTRACT_REGISTER) and is_number(by)
        return one if moves or one.opcode in (MOVE, MOVE_REGISTER) else None
    return None if is_made_by else one


def enter(rewriting, begins):
    """Makes a block before the loop, in which these registers get these numbers."""
    flow, head = rewriting.flow, rewriting.loop.head
    before = flow.add(Block([rewriting.made(MOVE, to=it, imm=number) for it, number in begins.items()]))
    rewriting.redirect_entering(before)
    flow.blocks[before].falls = head
    return before


def loads(rewriting):
    """Returns the loads of bytes through a number.

    Each has the instruction, the facts before it, the number's Shift, and the live registers of R0
    to R5 after it."""
    rewriting.shifts()
    for name, block in rewriting.blocks.items():
        now, shifts = dict(rewriting.at[name]), dict(rewriting.starts[name])
        for one, needed in zip(block.code, rewriting.flow.behind(block, rewriting.needed, rewriting.needs)):
            if one.opcode == LOAD_BYTE and is_number(now.get(one.by)):
                yield one, dict(now), shifts.get(one.by), needed & set(range(6)) - {one.to}
            rewriting.flow.step(one, now)
            rewriting.shift(one, shifts)


def is_inside(rewriting, one, now, shift, _):
    """Returns whether the byte's place is never before the payload's start.

    This follows from the facts about the number, or from its increase from there."""
    known = now[one.by]
    if 0 <= known[0] + one.offset and known[1] < MOST:
        return True
    steps, begins = rewriting.steps(rewriting.shifts()), rewriting.begins.get(shift.base) if shift else None
    by = steps.get(shift.base) if shift else None
    if not by or by.cut or shift.cut or by.number < 0 or not is_number(begins):
        return False
    return 0 <= begins[0] + shift.number + one.offset and begins[1] < MOST


def renamed(rewriting, found):
    """Returns registers of R6 to R9 for those below that are live after such a load.

    One is left for the loop's counter. Pointers come first. A loop with calls has its values in the
    right ones already, except for their arguments. Returns None if a pointer gets none, since the
    stack holds only numbers."""
    needed = set().union(*(it for *_, it in found))
    pointers = {it for _, now, _, behind in found for it in behind if not is_number(now.get(it))}
    free = [it for it in rewriting.free() if it in range(6, 10) and not rewriting.calls]
    old = sorted(needed, key=lambda it: (it not in pointers, it))
    names = dict(zip(old, free[: max(len(pointers), len(free) - 1, 0)]))
    return names if pointers <= names.keys() else None


def asked(one, names, needed, homes):
    """Returns an instruction with the other registers.

    A load, after which these registers are live, becomes a call whose result becomes a byte."""
    takes = one.takes_register or one.kind in (LDX, STX)
    made = one.copy()
    made.to, made.by = names.get(one.to, one.to), names.get(one.by, one.by) if takes else one.by
    if needed is None:
        return [made]
    kept = [(it, homes[it]) for it in sorted(needed) if it in homes]
    saves = [made.like(STORE_REGISTER, to=FRAME, by=it, offset=home) for it, home in kept]
    place = [made.like(MOVE_REGISTER, to=1, by=made.by), *([made.like(ADD, to=1, imm=one.offset)] if one.offset else [])]
    call = made.like(CALL, to=0, by=0, imm=PAYLOAD_BYTE)
    byte = [made.like(MOVE_REGISTER, to=1, by=0), made.like(SHIFT_RIGHT, to=1, imm=63), made.like(SUBTRACT, to=1, imm=1)]
    byte += [made.like(AND, to=1, imm=255), made.like(AND_REGISTER, to=0, by=1), *([made.like(MOVE_REGISTER, to=made.to, by=0)] if made.to else [])]
    return [*saves, *place, call, *byte, *(made.like(LOAD, to=it, by=FRAME, offset=home) for it, home in kept)]

"""Loops in the accepted form: a head, a body, and at its end `add64 r, c` and `jlt r, n, head`.

The loop is left only by that jump. A compiler's loops have other forms. Here a loop is bounded
first: a register is changed by the same number in each iteration, and is compared with a known
number. Then the loop is counted, or its iterations are written out: if an iteration makes a
pointer, which a body may not, or in version 1. Each rewriting states why it keeps the meaning. A
loop that can't be rewritten is reported.

An iteration is a run from the head to the next time at the head. A back edge leads to the head from
inside the loop, an exit leaves it."""
from typing import NamedTuple

from flow import ADD, ADD_REGISTER, CALL, EQUAL_TO, FRAME, INVERSE, JA, JMP, LDX, LESS, LOAD, MOVE, MOVE_REGISTER, NOT_0, ST, STORE, STORE_REGISTER
from flow import STX, SUBTRACT, Block, Instruction, is_number, is_pointer, join, put, shifted, single
from loads import ask_for_bytes

MOST_TURNS, MOST_BOUND, MOST_REWRITINGS = 1024, 1024, 1000
MIRROR = {1: 1, 5: 5, 2: 10, 10: 2, 3: 11, 11: 3, 6: 12, 12: 6, 7: 13, 13: 7}  # of a jump's code, if its sides change places
SIGNED = (6, 7, 12, 13)
SHIFT_UP, SHIFT_DOWN, DIVIDE, AND, AND_REGISTER, MODULO = 0x67, 0x77, 0x37, 0x57, 0x5F, 0x97  # of 64 bits
CUTS = {0x67: "up", 0x77: "low", 0xC7: "signed"}  # shifts by 32: up and down again they reduce a number to its low half, without sign or with it


class Unfit(Exception):
    """A loop that can't be rewritten: the reason, what to write in C instead, and the instructions
    that show it."""

    def __init__(self, why, instead, *places):
        super().__init__(why)
        self.instead, self.places = instead, places


class Unbounded(Unfit):
    """Loops with an unknown number of iterations; it has one place for each loop."""


class Test:
    """An exit that bounds a loop: the block that ends with it, its target, and the most iterations.

    is_exact if there are never fewer. `others` are further exits, if each iteration comes to one of
    them; `asks` is the comparison if another one in its place might continue for ever."""

    def __init__(self, block, out, turns, is_exact, asks=None, others=()):
        self.block, self.out, self.turns, self.is_exact, self.asks, self.others = block, out, turns, is_exact, asks, others


class Shift(NamedTuple):
    """A register's value at the iteration's start plus a number, or a number alone; or the low half
    of that.

    "mixed" is a value of which only the low half is so, or all of it for small numbers; "up" is
    halfway to the low half."""

    base: object
    number: int
    cut: object = None


class Most(NamedTuple):
    """A number that is at most a register's value at the iteration's start, divided by a constant.

    Or that, shifted up by 32."""

    base: object
    by: int
    is_up: bool = False


class Counter:
    """The counter of a loop: a register, its step and bound, and the loop's existing addition, or
    None."""

    def __init__(self, register, by, bound, addition=None):
        self.register, self.by, self.bound, self.addition = register, by, bound, addition


def mend_loops(flow, needs, start, frame, may_count, room):
    """Gives each loop of a function the accepted form.

    `needs` has the registers that a called function reads, `start` the facts at the start, and
    `room` the number of slots that the function may have."""
    for _ in range(MOST_REWRITINGS):
        flow.thread()
        loops = flow.loops()
        if loops is None:
            first = next(one for it in flow.blocks.values() for one in it.code)
            raise Unfit("a loop into whose middle a jump leads", "`for`, `while` or `do`", first)
        verified = flow.known(start, by_homes=False)
        left = [it for it in loops.values() if not (may_count and is_counted(flow, it, begins(flow, it, verified, start)))]
        if not left:
            return
        mend_one(flow, left, needs, start, frame, may_count, room)
    raise Unfit("too many loops", "fewer loops", next(one for it in flow.blocks.values() for one in it.code))


def mend_one(flow, loops, needs, start, frame, may_count, room):
    """Gives the accepted form to the first of these loops whose iterations are bounded.

    That may bound another's. If none is bounded, each is reported. A loop with an unbounded one
    inside waits, since its iterations might be written out."""
    unbounded = []
    for loop in loops:
        one = Rewriting(flow, loop.head, needs, start, frame)
        if one.test() is None:
            unbounded.append(one)
        elif not any(it.loop.blocks < loop.blocks for it in unbounded):
            return one.mend(may_count, room)
    instead = "count up to a constant, `for (fc_u64 i = 0; i < 64; i++)`, and leave it before that by `break`"
    raise Unbounded(f"a loop of which nothing tells that it has at most {MOST_TURNS} turns", instead, *dict.fromkeys(it.shown for it in unbounded))


def begins(flow, loop, known, start):
    """Returns the facts before a loop's first iteration."""
    _, ways = known
    entering = [way for (name, to), way in ways.items() if to == loop.head and name not in loop.blocks]
    entering += [start] if loop.head == flow.first else []
    found = entering[0]
    for way in entering[1:]:
        found = join(found, way)
    return found


def is_counted(flow, loop, before):
    """Returns whether the loop has the form already, with its end as a block of its own.

    `before` has the verifier's facts before its first iteration."""
    end = flow.blocks[loop.backs[0]].code
    if len(loop.backs) != 1 or len(end) != 2 or not (end[0].opcode == ADD and end[1].opcode == LESS and end[0].to == end[1].to):
        return False
    counter, others = end[0].to, [it for it in loop.blocks if it != loop.backs[0]]
    leaves = any(to not in loop.blocks for it in others for to in flow.blocks[it].after)
    if leaves or any(counter in one.writes() for it in others for one in flow.blocks[it].code):
        return False
    is_entered = not jumps_to(flow, loop) and is_number(before.get(counter)) and before[counter][1] < end[1].imm
    return is_entered and end[0].imm >= 1 and end[1].imm <= MOST_BOUND


def jumps_to(flow, loop):
    """Returns whether a jump might lead to a loop from outside.

    Only one block that always continues there is put directly before it."""
    entering = [it for name, it in flow.blocks.items() if name not in loop.blocks and loop.head in it.after]
    return bool(entering) and not (len(entering) == 1 and len(entering[0].after) == 1 and entering[0].code)


class Rewriting:
    """A loop that is to be rewritten, and the facts about it."""

    def __init__(self, flow, head, needs, start, frame):
        loops, known = flow.loops(), flow.known(start)
        self.flow, self.loop, self.needs, self.start, self.frame = flow, loops[head], needs, start, frame
        loop, (self.at, _) = self.loop, known
        self.begins = begins(flow, loop, known, start)  # the facts before the first iteration
        self.verified = begins(flow, loop, flow.known(start, by_homes=False), start)  # and the verifier's
        self.blocks = {it: flow.blocks[it] for it in flow.reached() if it in loop.blocks}  # each before its successors
        self.inner = {it.head: it for it in loops.values() if it.blocks < loop.blocks}
        self.written = flow.changed(loop.blocks)
        self.calls = any(one.opcode == CALL for one in self.code())
        self.needed = flow.needed(needs)
        dominators = flow.dominators()
        always = set.intersection(*(dominators[it] for it in loop.backs)) & loop.blocks
        self.once = always.difference(*(it.blocks for it in self.inner.values()))  # each iteration but the last comes there once
        self.shown = (flow.blocks[loop.backs[0]].code or list(self.code()) or [Instruction(JA, where=flow.name)])[-1]

    def code(self):
        return (one for block in self.blocks.values() for one in block.code)

    def mend(self, may_count, room):
        test, pointer = self.test(), self.pointer()
        if may_count and pointer is None:
            try:
                return self.count(test)
            except Unfit:
                if self.spare():
                    return None
                if not self.fits(test, room):
                    raise
        if not self.fits(test, room):
            if may_count and pointer is not None and ask_for_bytes(self):
                return None
            left = room - sum(it.slots for name, it in self.flow.blocks.items() if name not in self.loop.blocks)
            size = f"written out its {test.turns} turns have {self.size(test)} slots, of {max(left, 0)} that are left"
            if pointer is None:
                raise Unfit(f"a loop, which version 1 hasn't; {size}", "fewer turns, or --format 2", self.shown)
            instead = "fc_payload_at(i), var_get(i), var_put(i, x), as tools/fcc makes of it; for a table a FC_FUNCTION that is given the index; or fewer turns"
            raise Unfit(f"a loop that can't be counted, since a turn makes a pointer ({pointer.where}); {size}", instead, self.shown, pointer)
        return self.write_out(test)

    # The number of its iterations

    def test(self):
        """Returns the exit that bounds the loop most narrowly.

        It compares a value that is changed by the same number in each iteration. If none is passed
        in each iteration, the result has several exits, one of which is."""
        ends = self.shifts()
        steps = self.steps(ends)
        found = [it for name in self.once for it in self.tests(name, ends, steps)]
        return min(found, key=lambda it: (it.turns, not it.is_exact), default=None) or self.joint_test(ends, steps)

    def joint_test(self, ends, steps):
        """Returns the tests that the back edges pass, as one Test with `others`.

        Returns None if a back edge has none. Each test compares a value that is changed by the same
        number in each iteration, so none continues in an iteration past all their bounds. Tests of
        equality, and of a value that is divided, are returned only if all are the same one."""
        dominators, nested = self.flow.dominators(), set().union(*(it.blocks for it in self.inner.values()))
        found = [it for name in self.blocks if name not in nested for it in self.tests(name, ends, steps)]
        chosen = [min((it for it in found if it.block in dominators[back]), key=lambda it: it.turns, default=None) for back in self.loop.backs]
        if None in chosen or len({it.asks for it in chosen}) > 1 and any(it.asks for it in chosen):
            return None
        chosen = list(dict.fromkeys(chosen))
        return Test(chosen[0].block, chosen[0].out, max(it.turns for it in chosen), False, others=chosen[1:])

    def tests(self, name, ends, steps):
        """Returns the test at a block's end, if it bounds the iterations that continue there."""
        block = self.blocks[name]
        outs = [it for it in block.after if it not in self.loop.blocks]
        if block.jumps is None or len(outs) != 1 or block.code[-1].kind != JMP:
            return
        jump = block.code[-1]
        code = jump.opcode >> 4
        code = INVERSE.get(code) if block.jumps == outs[0] else code  # by which it continues
        divided = self.divided(ends[name], jump, code)
        if divided is not None and divided < MOST_TURNS:
            yield Test(name, outs[0], 1 + divided, False, ("divided", name))
        left, right = ends[name].get(jump.to), ends[name].get(jump.by) if jump.takes_register else Shift(None, jump.imm)
        if left is None or left.base not in steps:
            left, right, code = right, left, MIRROR.get(code)
        if left is None or right is None or left.base not in steps or code is None:
            return
        by, bound = steps[left.base], self.bound(right)
        if code == 1 and left._replace(cut=None) == right._replace(cut=None) and {left.cut, right.cut} == {"low", "mixed"}:
            left, by, code, bound = left._replace(cut=None), by._replace(cut=None), 10, single(1 << 32)  # its own low half: it is below 2^32
        goes_on = turns_on(code, self.begins.get(left.base), left, by, bound) or turns_below(code, left, by, bound)
        if goes_on is not None and goes_on[0] < MOST_TURNS:
            yield Test(name, outs[0], 1 + goes_on[0], goes_on[1], (code, left, right) if code in (1, 5) else None)

    def divided(self, now, jump, code):
        """Returns in how many iterations at most a comparison of a divided value continues.

        The comparison continues while a register is above a constant, or isn't zero. In each
        iteration the register becomes at most its value, or another register's, divided by a
        constant above 1. Returns None for any other comparison."""
        left, right = jump.to, now.get(jump.by) if jump.takes_register else Shift(None, jump.imm)
        if jump.takes_register and right is not None and right.base is not None:
            left, right, code = jump.by, now.get(jump.to), MIRROR.get(code)
        most = now.get(("most", left))
        if most is None or most.is_up or right is None or right.base is not None or right.cut or not 0 <= right.number < 1 << 31:
            return None
        least = {2: right.number + 1, 6: right.number + 1, 3: right.number, 7: right.number}.get(code, 1 if code == 5 and right.number == 0 else 0)
        if not least:
            return None
        base, by, count = most.base, most.by, 0
        last = self.divided_by(base)
        if last and last.base != base and by == 1:  # in the next iteration it is what another register becomes
            base, by, count = last.base, last.by, 1
            last = self.divided_by(base)
        if not last or last.base != base:
            return None
        begins = self.begins.get(base)
        value = begins[1] if is_number(begins) else (1 << 64) - 1
        while value // by >= least:
            value, count = value // last.by, count + 1
        return count

    def divided_by(self, register):
        """Returns an upper bound of a register in the next iteration.

        It is another register's value, or its own, divided by a constant above 1; None if there is
        no such bound."""
        turns = [self.ends[it].get(("most", register)) for it in self.loop.backs]
        if not all(it and it.base == turns[0].base and not it.is_up and it.by > 1 for it in turns):
            return None
        return Most(turns[0].base, min(it.by for it in turns))

    def bound(self, right):
        """Returns the facts about a comparison's right side, if it is the same in each
        iteration."""
        if right.base is None:
            return single(right.number)
        known = shifted(self.begins.get(right.base), right.number) if self.is_same(right.base) else None
        return known if known is None or right.cut is None or known[1] < 1 << 30 else None

    def is_same(self, register):
        """Returns whether the value is the same in each iteration as before, though it may be
        loaded again."""
        return register not in self.written or all(self.ends[it].get(register) == Shift(register, 0) for it in self.loop.backs)

    def shifts(self):
        """Returns the value of each register at each block's end: a Shift, or None."""
        order, self.starts, self.ends = list(self.blocks), {}, {}
        places = (*range(11), *self.flow.homes)
        at, ends = {self.loop.head: {it: Shift(it, 0) for it in places} | {("most", it): Most(it, 1) for it in places}}, self.ends
        for number, name in enumerate(order):
            changed = self.flow.changed(self.inner[name].blocks) if name in self.inner else ()
            ends[name] = now = {it: one for it, one in at[name].items() if (it[1] if isinstance(it, tuple) else it) not in changed}
            self.starts[name] = dict(now)
            for one in self.blocks[name].code:
                self.shift(one, now)
            for to in set(self.blocks[name].after) & set(order[number + 1 :]):
                at[to] = {it: one for it, one in now.items() if at.get(to, now).get(it) == one}
        return ends

    def most(self, one, now):
        """Returns the upper bound of each register and home after an instruction."""
        of, home = now.get(("most", one.to)), self.flow.home(one, LDX, ST, STX)
        if one.kind in (ST, STX):
            if home is not None:
                put(now, ("most", home), now.get(("most", one.by)) if one.kind == STX else None)
        elif one.kind == LDX:
            put(now, ("most", one.to), now.get(("most", home)) if home is not None else None)
        elif one.opcode == MOVE_REGISTER and not one.offset:
            put(now, ("most", one.to), now.get(("most", one.by)))
        elif one.opcode == SHIFT_UP and one.imm == 32:
            put(now, ("most", one.to), of._replace(is_up=True) if of and not of.is_up else None)
        elif one.opcode == SHIFT_DOWN and 0 <= one.imm < 64:
            by = one.imm - 32 if of and of.is_up else one.imm
            put(now, ("most", one.to), Most(of.base, of.by << by) if of and by >= 0 else None)
        elif one.opcode == DIVIDE and one.imm > 0 and not one.offset:
            put(now, ("most", one.to), Most(of.base, of.by * one.imm) if of and not of.is_up else None)
        elif not (one.opcode in (AND, AND_REGISTER) or one.opcode == MODULO and not one.offset) or of and of.is_up:
            for it in one.writes():
                now.pop(("most", it), None)

    def shift(self, one, now):
        """Returns the value of each register and home after an instruction."""
        self.most(one, now)
        of = now.get(one.to)
        if one.kind in (ST, STX):
            home = self.flow.home(one, ST, STX)
            put(now, home, now.get(one.by) if one.kind == STX else None)
        elif one.kind == LDX:
            put(now, one.to, now.get(self.flow.home(one, LDX)))
        elif one.opcode == MOVE:
            put(now, one.to, Shift(None, one.imm))
        elif one.opcode in (ADD, SUBTRACT):
            put(now, one.to, more(of, one.imm if one.opcode == ADD else -one.imm))
        elif one.opcode == ADD_REGISTER and not (of and of.cut == "up"):
            other = now.get(one.by)
            of, other = (other, of) if of and of.base is None else (of, other)
            put(now, one.to, more(of, other.number) if other and other.base is None else None)
        elif one.opcode == ADD_REGISTER:  # a number that is moved into the high half, unchanged
            of_by = now.get(one.by)
            by = of_by and of_by.base not in self.written and self.bound(of_by) or (0, 1)
            high = (by[0] >> 32) - (by[0] >> 63 << 32)
            put(now, one.to, of._replace(number=of.number + high) if by[0] == by[1] and not by[0] & 0xFFFFFFFF else None)
        elif one.opcode == MOVE_REGISTER and not one.offset:
            put(now, one.to, now.get(one.by))
        elif one.opcode in CUTS and one.imm == 32:
            cut = CUTS[one.opcode]
            put(now, one.to, of._replace(cut=cut) if of and (of.cut == "up") == (cut != "up") else None)
        else:
            for it in one.writes():
                now.pop(it, None)

    def steps(self, ends):
        """Returns the registers and homes that are changed by the same number in each iteration,
        with their Shift.

        Also those that are set to the value of such a one, and begin as far from it as they are
        then."""
        last = {it: one for it, one in ends[self.loop.backs[0]].items() if isinstance(one, Shift) and all(ends[back].get(it) == one for back in self.loop.backs)}
        found = {it: one for it, one in last.items() if one.base == it and one.number and one.cut != "up"}
        for it, one in last.items():
            leader, mine, its = found.get(one.base), self.begins.get(it), self.begins.get(one.base)
            if leader and not (leader.cut or one.cut) and is_number(mine) and is_number(its) and mine[0] == mine[1] and its[0] == its[1]:
                if mine[0] == its[0] + one.number - leader.number:
                    found[it] = Shift(it, leader.number)
        return found

    def pointer(self):
        """Returns an instruction of the loop that gives a register a pointer; None if there is
        none."""
        for name, block in self.blocks.items():
            now = dict(self.at[name])
            for one in block.code:
                self.flow.step(one, now)
                if any(is_pointer(now.get(it)) for it in one.writes()):
                    return one
        return None

    # Its iterations written out

    def size(self, test):
        return test.turns * (sum(it.slots for it in self.blocks.values()) - test.is_exact)

    def fits(self, test, room):
        return self.size(test) + sum(it.slots for name, it in self.flow.blocks.items() if name not in self.loop.blocks) <= room

    def write_out(self, test):
        """Writes its iterations out: the back edges of one lead to the next.

        In the last iteration the test leaves the loop, as it does then at the latest; so no back
        edge is left there. If the test is exact, it leaves the loop in no earlier one."""
        flow, copies = self.flow, []
        for _ in range(test.turns):
            copies.append({name: flow.add(Block(list(block.code), block.falls, block.jumps)) for name, block in self.blocks.items()})
        for here, after in zip(copies, [*copies[1:], None]):
            if after is None:
                for it in (test, *test.others):
                    flow.blocks[here[it.block]].settle(it.out)
            elif test.is_exact:
                flow.blocks[here[test.block]].settle(next(it for it in self.blocks[test.block].after if it in self.blocks))
            for name in here.values():
                flow.blocks[name].redirect({**here, self.loop.head: after and after[self.loop.head]})
        self.redirect_entering(copies[0][self.loop.head])
        flow.drop_unreached()

    def redirect_entering(self, to):
        for name, block in self.flow.blocks.items():
            if name not in self.loop.blocks:
                block.redirect({self.loop.head: to})
        if self.flow.first == self.loop.head:
            self.flow.first = to

    # Counting

    def count(self, test):
        """Makes it a counted loop.

        If the test is exact and the last part of each iteration, the counter's jump replaces it: it
        continues as often. Otherwise the test remains, and the counter's jump only never ends the
        loop earlier. Any other exit sets a flag. The remaining iterations begin with a test of it
        and do nothing more, and after the loop it determines where the run continues."""
        flow, loop = self.flow, self.loop
        is_last = test.is_exact and loop.backs == [test.block]
        jump = flow.blocks[test.block].code[-1] if is_last else None
        outs = [(name, to) for name, block in self.blocks.items() for to in dict.fromkeys(block.after) if to not in loop.blocks]
        outs = [it for it in outs if not (is_last and it == (test.block, test.out))]
        free = self.free()
        counter = self.own_counter(test, outs, jump) or (Counter(free.pop(0), 1, test.turns) if free else None)
        if counter is None:
            raise Unfit("a loop that leaves no register for its count", "fewer values that are kept from turn to turn", self.shown)
        ends = [it for it in dict.fromkeys(to for _, to in outs) if it != test.out] + [test.out]
        flag, is_kept = self.flag(free, ends, counter.register) if outs else (None, False)
        if is_last:
            flow.blocks[test.block].settle(loop.head)
        is_jumped_to = jumps_to(flow, loop)
        end, before = self.begin_and_end(counter)
        ranges = self.ranges(test)
        if outs:
            head = self.gather(outs, ends, flag, self.frame.take() if is_kept else None, end, before, flow.blocks[test.block] if is_last else None)
        else:
            flow.blocks[end].falls, head = test.out, loop.head
        flow.ranges.update({(head, it): ends for it, ends in ranges.items()})
        if is_jumped_to and not flow.blocks[before].code:
            keeps = self.made(MOVE_REGISTER, to=counter.register, by=counter.register)  # for jumps to the loop, which lead here
            flow.blocks[before].code.append(keeps)

    def ranges(self, test):
        """Returns the ends of each number at an iteration's start that is changed by a constant in
        each iteration.

        The remaining iterations are included."""
        found = {}
        for it, one in self.steps(self.ends).items():
            begins = self.begins.get(it)
            if is_number(begins) and not one.cut:
                least, most = sorted((0, one.number * test.turns))
                if 0 <= begins[0] + least and begins[1] + most < 1 << 63:
                    found[it] = begins[0] + least, begins[1] + most
        return found

    def made(self, opcode, **fields):
        return Instruction(opcode, where=self.shown.where, line=self.shown.line, **fields)

    def own_counter(self, test, outs, jump):
        """Returns a register of the loop that can count.

        Its addition may be at the iteration's end as well: each iteration comes to it once, nothing
        else changes the register, and nothing after it in the iteration reads it, except for the
        jump that is removed. After another exit the register increases further, so nothing after
        that may need it."""
        for register, by in ((it, one.number) for it, one in self.steps(self.shifts()).items()):
            writers = [(name, one) for name, block in self.blocks.items() for one in block.code if register in one.writes()]
            begins = self.verified.get(register)
            if len(writers) != 1 or by < 1 or not is_number(begins) or self.calls and register < 6:
                continue
            if jump and begins[0] != begins[1]:
                continue  # it might continue more often
            if any(register in self.needed[to] for _, to in outs):
                continue
            (name, one), = writers
            bound = begins[1] + by * (test.turns - 1) + 1
            if one.opcode == ADD and name in self.once and bound <= MOST_BOUND:
                if not any(register in it.reads(self.needs) for it in self.following(name, one) if it is not jump):
                    return Counter(register, by, bound, one)
        return None

    def following(self, name, one):
        """Returns the instructions that may follow one in its iteration."""
        code = self.blocks[name].code
        found, done, todo = code[code.index(one) + 1 :], {self.loop.head}, list(self.blocks[name].after)
        while todo:
            at = todo.pop()
            if at in self.blocks and at not in done:
                done.add(at)
                found += self.blocks[at].code
                todo += self.blocks[at].after
        return found

    def free(self):
        """Returns the registers that the loop doesn't touch and that aren't live after it.

        If it calls, only those that a call keeps."""
        touched = self.written.union(self.needed[self.loop.head], *(one.reads(self.needs) for one in self.code()))
        return [it for it in (9, 8, 7, 6, *(() if self.calls else (5, 4, 3, 2, 1, 0))) if it not in touched]

    def spare(self):
        """Frees a register, if possible: while the loop runs its value is on the stack.

        An instruction that reads it first loads it into a register that isn't live there; one that
        writes it stores it then. Only numbers may be there."""
        counters = {self.flow.blocks[it.backs[0]].code[0].to for it in self.inner.values()}
        flow, head, home = self.flow, self.loop.head, self.frame.take()
        registers = [it for it in ((6, 7, 8, 9) if self.calls else range(10)) if it not in counters]
        plans = [(it, codes) for it in registers for codes in [self.without(it, home)] if codes]
        if not plans:
            return False
        register, codes = min(plans, key=lambda it: sum(len(code) for code in it[1].values()))
        flow.homes.add(home)
        flow.ranges = {place: ends for place, ends in flow.ranges.items() if place[1] != register}
        for name, block in self.blocks.items():
            block.code = codes[name]
            for to in dict.fromkeys(block.after):
                if to not in self.loop.blocks and register in self.needed[to]:
                    block.redirect({to: flow.add(Block([self.made(LOAD, to=register, by=FRAME, offset=home)], falls=to))})
        if register in self.needed[head]:
            before = flow.add(Block([self.made(STORE_REGISTER, to=FRAME, by=register, offset=home)]))
            self.redirect_entering(before)
            flow.blocks[before].falls = head
        return True

    def without(self, register, home):
        """Returns the loop's code by blocks, with a home in place of this register.

        None if that isn't possible, or the register isn't used."""
        codes = {}
        is_touched = register in self.needed[self.loop.head]
        if is_touched and not is_number(self.begins.get(register)):
            return None
        for name, block in self.blocks.items():
            now, codes[name] = dict(self.at[name]), []
            for one, needed in zip(block.code, self.flow.behind(block, self.needed, self.needs)):
                self.flow.step(one, now)
                reads, writes = register in one.reads(self.needs), register in one.writes()
                is_touched |= reads or writes
                if not (reads or writes):
                    codes[name].append(one)
                    continue
                instead = self.instead(one, register, home, reads, writes, needed | one.reads(self.needs))
                if instead is None or writes and not is_number(now.get(register)):
                    return None
                codes[name] += instead
        return codes if is_touched else None

    def instead(self, one, register, home, reads, writes, needed):
        """Returns the equivalent of an instruction, with a home in place of the register."""
        if one.opcode == MOVE_REGISTER and not one.offset and one.to != one.by:
            return [self.made(STORE_REGISTER, to=FRAME, by=one.by, offset=home) if writes else self.made(LOAD, to=one.to, by=FRAME, offset=home)]
        if one.opcode == MOVE:
            return [self.made(STORE, to=FRAME, offset=home, imm=one.imm)]
        other = next((it for it in range(6) if it not in needed and it not in (one.to, one.by)), None)
        if other is None or one.opcode == CALL:
            return None
        changed = one.copy()
        has_by = one.kind in (LDX, STX) or one.kind >= 4 and one.takes_register and one.opcode >> 4 != 13  # 13: a change of the order of bytes
        changed.to, changed.by = (other if it == register else it for it in (one.to, one.by if has_by else None))
        changed.by = changed.by if has_by else one.by  # an unused field is unchanged
        loads = [self.made(LOAD, to=other, by=FRAME, offset=home)] if reads else []
        return [*loads, changed, *([self.made(STORE_REGISTER, to=FRAME, by=other, offset=home)] if writes else [])]

    def begin_and_end(self, counter):
        """Gives it a block before it, its only predecessor, and one at its end for the back edges.

        The last one has the counter's addition and jump. If the loop calls, nothing is known at the
        head of R1 to R5: those that an iteration needs from before are on the stack."""
        flow, loop = self.flow, self.loop
        before = flow.add(Block([], falls=loop.head))
        self.redirect_entering(before)
        flow.blocks[before].falls = loop.head
        if counter.addition is None:
            flow.blocks[before].code.append(self.made(MOVE, to=counter.register))
        else:
            for block in self.blocks.values():
                block.code = [one for one in block.code if one is not counter.addition]
        addition, jump = self.made(ADD, to=counter.register, imm=counter.by), self.made(LESS, to=counter.register, imm=counter.bound)
        end = flow.add(Block([addition, jump], jumps=loop.head))
        homes = {it: self.frame.take() for it in sorted(self.needed[loop.head] & set(range(1, 6)))} if self.calls else {}
        for back in loop.backs:
            saves = [self.made(STORE_REGISTER, to=FRAME, by=it, offset=home) for it, home in homes.items()]
            flow.blocks[back].redirect({loop.head: flow.add(Block(saves, falls=end)) if saves else end})
        flow.blocks[before].code += [self.made(STORE_REGISTER, to=FRAME, by=it, offset=home) for it, home in homes.items()]
        flow.blocks[loop.head].code[:0] = [self.made(LOAD, to=it, by=FRAME, offset=home) for it, home in homes.items()]
        return end, before

    def flag(self, free, ends, counter):
        """Returns the register of the flag that the loop was left.

        Also returns whether it is kept on the stack, and is only read at the iteration's start."""
        if free:
            return free[0], False
        needed = self.needed[self.loop.head].union(*(self.needed[it] for it in ends))
        flag = next((it for it in range(6) if it not in needed and it != counter), None)
        if flag is None:
            raise Unfit("a loop that leaves no register for whether it was left", "fewer values that are kept from turn to turn", self.shown)
        return flag, True

    def gather(self, outs, ends, flag, home, end, before, last):
        """Redirects the exits to the loop's end, with a flag that says which one was taken.

        After the loop the registers are as they were at the exit, since the remaining iterations
        change nothing but the counter and the flag. The verifier has to know this too: a register
        that isn't live at the head gets a number before the loop, and if the loop calls, R1 to R5
        are kept on the stack."""
        flow, head = self.flow, self.loop.head
        look = [self.made(LOAD, to=flag, by=FRAME, offset=home)] if home else []
        kept = {to: self.needed[to] & self.written & set(range(1, 6)) if self.calls else set() for to in ends}
        homes = {(to, it): self.frame.take() for to in ends for it in sorted(kept[to])}
        flow.blocks[before].code += [self.made(STORE, to=FRAME, offset=home) if home else self.made(MOVE, to=flag)]
        for it in sorted(set().union(*(self.needed[to] - kept[to] for to in ends)) & self.written - self.needed[head]):
            flow.blocks[before].code.append(self.made(MOVE, to=it))
        saves = {to: [self.made(STORE_REGISTER, to=FRAME, by=it, offset=homes[to, it]) for it in sorted(kept[to])] for to in ends}
        if last is not None:
            last.code += saves[ends[-1]]  # the last iteration leads there by the loop's end
        for name, to in outs:
            code = list(saves[to])
            number = 1 + ends.index(to)
            code.append(self.made(STORE, to=FRAME, offset=home, imm=number) if home else self.made(MOVE, to=flag, imm=number))
            flow.blocks[name].redirect({to: flow.add(Block(code, falls=end))})
        at = flow.add(Block([*look, self.made(NOT_0, to=flag)], falls=head, jumps=end))
        for name in (before, end):
            flow.blocks[name].redirect({head: at})
        behind = Block(list(look) if len(ends) > 1 else [])
        flow.blocks[end].falls = flow.add(behind)
        for number, to in enumerate(ends, 1):
            gets = [self.made(LOAD, to=it, by=FRAME, offset=homes[to, it]) for it in sorted(kept[to])]
            leads = flow.add(Block(gets, falls=to)) if gets else to
            if number < len(ends):
                behind.code.append(self.made(EQUAL_TO, to=flag, imm=number))
                following = Block([])
                behind.jumps, behind.falls = leads, flow.add(following)
                behind = following
            else:
                behind.falls = leads
        return at


def more(of, number):
    """Returns a Shift plus a number; None without a Shift."""
    return of._replace(number=of.number + number, cut="mixed" if of.cut else None) if of and of.cut != "up" else None


def turns_below(code, left, by, bound):
    """Returns the same for a number that is below a bound, wherever it begins.

    It takes each value below the bound once, upwards or downwards, and then the loop is left.
    Returns None for any other."""
    if code not in (10, 11) or bound is None or left.cut not in (None, "low") or by.cut or not 0 < abs(by.number) < 1 << 20:
        return None
    end = bound[1] + (code == 11)
    return (-(-end // abs(by.number)), False) if end <= 1 << 20 else None


def turns_on(code, begins, left, by, bound):
    """Returns how often at most a comparison continues, and whether it does exactly so.

    Its left side is a Shift of a value that begins as `begins` and is changed by the Shift `by`;
    its right side is in `bound`. Returns None if that isn't known, or if numbers are so large that
    the left side might wrap."""
    if not is_number(begins) or bound is None:
        return None
    is_equal, is_cut = code == 5, left.cut or by.cut
    bits, is_signed = (32, True) if is_cut else (64, is_equal or code in SIGNED)
    first = numbers(begins, left.number, bits, is_signed)
    bound = numbers(within_cut(bound, left.cut) if is_cut else bound, 0, bits, is_signed)
    if first is None or bound is None or abs(by.number) >= 1 << 20:
        return None
    (low, high), (least, most), step = first, bound, by.number
    if not is_equal or is_cut and left.cut not in ("low", "signed"):  # otherwise the comparison is the same though it wraps
        if max(abs(it) for it in (low, high, least, most, step)) >= 1 << bits - 2 or is_cut and left.cut != "signed" and min(low, least) < 0:
            return None
    is_exact = low == high and least == most
    if is_equal and step > 0 and high <= least and (step == 1 or is_exact and (least - low) % step == 0):
        return (most - low) // step, is_exact
    if is_equal and step < 0 and most <= low and (step == -1 or is_exact and (low - least) % -step == 0):
        return (high - least) // -step, is_exact
    if code in (10, 11, 12, 13) and step > 0:  # less, or less or equal
        return max(0, -((low - most - (code in (11, 13))) // step)), is_exact
    if code in (2, 3, 6, 7) and step < 0:  # greater, or greater or equal
        least -= code in (3, 7)
        return (max(0, -((least - high) // -step)), is_exact) if code in SIGNED or least >= -step - 1 else None
    return None


def within_cut(known, cut):
    """Returns the same, if each of the numbers may be the result of such a cut."""
    low, high = known
    is_negative = cut == "signed" and low >= (1 << 64) - (1 << 31)
    return known if is_negative or high < 1 << (31 if cut == "signed" else 32) else None


def numbers(known, by, bits, is_signed):
    """Returns the facts about a number plus a constant, as a number of this many bits; None if it
    might wrap."""
    if known is None:
        return None
    least, end = (known[0] + by) % (1 << bits), 1 << (bits - 1 if is_signed else bits)
    least -= 1 << bits if least >= end else 0
    most = least + known[1] - known[0]
    return (least, most) if most < end else None

"""The flow of a function: instructions, blocks, registers needed later, and facts about registers.

Numbers and names are those of the instruction set (RFC 9669). The facts are in a dictionary. Its
keys are registers, by their numbers, and homes: places of eight bytes in the frame to which no
pointer leads, by their offsets from R10. A value is a number, given as its least and its greatest
value, or POINTER, or a Request, a pointer into the request. A register or home without an entry is
unknown."""

LDX, ST, STX, ALU32, JMP, JMP32, ALU64 = 1, 2, 3, 4, 5, 6, 7  # classes
JA, JA32, CALL, CALLX, EXIT, LDDW = 0x05, 0x06, 0x85, 0x8D, 0x95, 0x18
ADD, ADD_REGISTER, SUBTRACT, MOVE, MOVE_REGISTER = 0x07, 0x0F, 0x17, 0xB7, 0xBF  # of 64 bits
LESS, NOT_0, EQUAL_TO = 0xA5, 0x55, 0x15  # jumps on a comparison with an immediate
STORE, STORE_REGISTER, LOAD = 0x7A, 0x7B, 0x79  # of eight bytes
EQUAL, INVERSE = 1, {1: 5, 5: 1, 2: 11, 11: 2, 3: 10, 10: 3, 6: 13, 13: 6, 7: 12, 12: 7}  # the codes of jumps, and the codes of their negations
ARGUMENTS = {1: 0, 2: 1, 3: 1, 4: 2, 5: 2, 6: 1, 7: 0}  # of the helpers
FRAME = 10
POINTER = "pointer"
ANY = (0, (1 << 64) - 1)


class Request:
    """A pointer into the request, to this place."""

    def __init__(self, at):
        self.at = at

    def __eq__(self, other):
        return isinstance(other, Request) and self.at == other.at

    __hash__ = None


class Instruction:
    """An instruction, with its place in clang's code, and the function that it calls."""

    def __init__(self, opcode, to=0, by=0, offset=0, imm=0, high=None, where="", line=None, calls=None):
        self.opcode, self.to, self.by, self.offset, self.imm, self.high = opcode, to, by, offset, imm, high
        self.where, self.line, self.calls = where, line, calls

    def copy(self):
        return Instruction(self.opcode, self.to, self.by, self.offset, self.imm, self.high, self.where, self.line, self.calls)

    def like(self, opcode, **fields):
        """Returns an instruction at the same place, with the same registers or others."""
        made = Instruction(opcode, self.to, self.by if opcode & 8 else 0, where=self.where, line=self.line)
        for name, value in fields.items():
            setattr(made, name, value)
        return made

    @property
    def slots(self):
        return 2 if self.opcode == LDDW else 1

    @property
    def lines(self):
        """Returns the line of C that it comes from, if that is known."""
        return [self.line] if self.line else []

    @property
    def kind(self):
        return self.opcode & 7

    @property
    def is_jump(self):
        """Returns whether it is a jump on a condition."""
        return self.kind in (JMP, JMP32) and self.opcode not in (JA, JA32, CALL, CALLX, EXIT)

    @property
    def takes_register(self):
        return bool(self.opcode & 8)

    def reads(self, needs):
        """Returns the registers that it reads; `needs` has those of a called function."""
        if self.opcode == CALL:
            return needs(self.calls) if self.calls else set(range(1, 1 + ARGUMENTS.get(self.imm, 5)))
        if self.opcode == EXIT:
            return {0}
        if self.opcode in (JA, JA32, LDDW):
            return set()
        if self.kind == LDX:
            return {self.by}
        if self.kind == ST:
            return {self.to}
        if self.kind == STX:
            return {self.to, self.by}
        code = self.opcode >> 4
        if code in (8, 13) and not self.is_jump:  # neg, and byte orders
            return {self.to}
        moves = code == 11 and not self.is_jump
        return (set() if moves else {self.to}) | ({self.by} if self.takes_register else set())

    def writes(self):
        """Returns the registers that it changes."""
        if self.opcode == CALL:
            return set(range(6))
        return {self.to} if self.kind in (0, LDX, ALU32, ALU64) else set()


class Block:
    """A sequence of instructions without jumps, except for the last one.

    After it the run continues at `jumps` or `falls`, the names of other blocks."""

    def __init__(self, code, falls=None, jumps=None):
        self.code, self.falls, self.jumps = code, falls, jumps

    @property
    def after(self):
        return [it for it in (self.jumps, self.falls) if it is not None]

    @property
    def slots(self):
        return sum(it.slots for it in self.code)

    def redirect(self, names):
        """Redirects jumps to one of these blocks to the block that the table names."""
        self.jumps, self.falls = names.get(self.jumps, self.jumps), names.get(self.falls, self.falls)

    def settle(self, to):
        """Removes the block's condition: the run always continues at this block."""
        if self.jumps is not None:
            self.code.pop()
        self.falls, self.jumps = to, None


class Loop:
    """A loop header, and the blocks from which a jump leads back to it without leaving them."""

    def __init__(self, head, blocks, backs):
        self.head, self.blocks, self.backs = head, blocks, backs


class Flow:
    """A function's blocks by their names, the name of the first, and the results computed from
    them."""

    def __init__(self, name, blocks, first, homes):
        self.name, self.blocks, self.first, self.homes = name, blocks, first, homes
        self.ranges = {}  # by a loop header and a register or home: the ends of its number there, in each iteration
        self.spare = max(blocks) + 1  # the name of the next new block

    def add(self, block):
        self.spare += 1
        self.blocks[self.spare] = block
        return self.spare

    def return_number(self):
        """Sets R0, which is unset at a function's start, to 0 there.

        Then a function that returns nothing on some path returns a number."""
        first = next(it for it in self.blocks[self.first].code)
        self.first = self.add(Block([first.like(MOVE, to=0)], falls=self.first))

    def before(self):
        """Returns the predecessors of each block."""
        found = {it: [] for it in self.blocks}
        for name, block in self.blocks.items():
            for to in set(block.after):
                found[to].append(name)
        return found

    def reached(self):
        """Returns the reachable blocks, each before its successors, apart from jumps back."""
        return forward(self.first, {name: block.after for name, block in self.blocks.items()})[0]

    def drop_unreached(self):
        alive = set(self.reached())
        self.blocks = {name: block for name, block in self.blocks.items() if name in alive}

    def thread(self):
        """Replaces jumps to a block without instructions by jumps to its successor.

        Also removes conditions that lead to one block either way."""
        for block in self.blocks.values():
            passed = {}
            for to in block.after:
                at, seen = to, set()
                while not self.blocks[at].code and at not in seen:
                    seen.add(at)
                    at = self.blocks[at].falls
                passed[to] = at
            block.redirect(passed)
            if block.jumps is not None and block.jumps == block.falls:
                block.settle(block.falls)
        self.drop_unreached()

    def order(self):
        """Returns the layout of the blocks: each before its successors, and a loop's blocks
        together.

        A loop's header is first and its end last. The order of their names is kept if it is such a
        layout already."""
        named, loops = sorted(self.blocks), self.loops()
        if not loops and named[0] == self.first and all(to > name for name in named for to in self.blocks[name].after):
            return named
        return self.laid(self.reached(), self.first, loops)

    def laid(self, names, first, loops):
        """Returns the layout of these blocks, without jumps back to the first."""
        inside = [it for it in loops.values() if it.blocks < set(names)]
        outer = [it for it in inside if not any(it.blocks < other.blocks for other in inside)]
        stands_for = {name: name for name in names} | {name: it.head for it in outer for name in it.blocks}
        after = {it: [] for it in stands_for.values()}
        for name in names:
            ways = [stands_for[to] for to in self.blocks[name].after if to in stands_for and to != first]
            after[stands_for[name]] += [it for it in ways if it != stands_for[name]]
        found = []
        for name in forward(stands_for[first], after)[0]:
            loop = next((it for it in outer if it.head == name), None)
            found += self.laid([it for it in names if it in loop.blocks], name, loops) if loop else [name]
        return found

    def dominators(self):
        """Returns the dominators of each block."""
        order, before = self.reached(), self.before()
        found = {it: set(order) for it in order}
        found[self.first] = {self.first}
        changes = True
        while changes:
            changes = False
            for it in order:
                ways = [found[way] for way in before[it] if way in found]
                now = {it} | (set.intersection(*ways) if it != self.first and ways else set())
                changes |= now != found[it]
                found[it] = now
        return found

    def loops(self):
        """Returns the loops by their headers, inner ones first; None if a jump leads into the
        middle of one."""
        order, dominators, before = self.reached(), self.dominators(), self.before()
        place = {it: at for at, it in enumerate(order)}
        found = {}
        for it in order:
            for to in self.blocks[it].after:
                if place[to] <= place[it]:
                    if to not in dominators[it]:
                        return None
                    found.setdefault(to, []).append(it)
        return {it.head: it for it in sorted((self.loop(head, backs, before) for head, backs in found.items()), key=lambda it: len(it.blocks))}

    def loop(self, head, backs, before):
        inside, todo = {head}, list(backs)
        while todo:
            one = todo.pop()
            if one not in inside:
                inside.add(one)
                todo += before[one]
        return Loop(head, inside, backs)

    def needed(self, needs):
        """Returns the live registers at each block's start: those read in or after it before they
        are written."""
        found = {it: set() for it in self.blocks}
        order, changes = self.reached()[::-1], True
        while changes:
            changes = False
            for name in order:
                block = self.blocks[name]
                now = set().union(*(found[to] for to in block.after))
                for one in reversed(block.code):
                    now = now - one.writes() | one.reads(needs)
                changes |= now != found[name]
                found[name] = now
        return found

    def behind(self, block, needed, needs):
        """Returns the live registers after each instruction of a block."""
        found, now = [], set().union(*(needed[to] for to in block.after))
        for one in reversed(block.code):
            found.append(now)
            now = now - one.writes() | one.reads(needs)
        return found[::-1]

    def say_what_is_known(self, start, needs):
        """Rewrites some instructions into forms about which more is known.

        A number minus a constant replaces the addition of the constant's negative. The addition of
        a number to a pointer replaces the reverse, which is refused."""
        (at, _), needed = self.known(start), self.needed(needs)
        for name, block in self.blocks.items():
            now, code = dict(at[name]), []
            for one, after in zip(block.code, self.behind(block, needed, needs)):
                known = now.get(one.to)
                if one.opcode == ADD and -(1 << 31) < one.imm < 0 and is_number(known) and known[1] >= -one.imm:
                    code.append(one.like(SUBTRACT, imm=-one.imm))
                elif one.opcode == ADD_REGISTER and is_number(known) and is_pointer(now.get(one.by)):
                    code += moved(one, after)
                else:
                    code.append(one)
                self.step(one, now)
            block.code = code

    def known(self, start, by_homes=True):
        """Returns the facts at each block's start, and on each edge from one block to the next.

        Without homes, they are those of the verifier, which knows nothing of loaded values. The
        blocks are analysed once, a loop's header before its jumps back. At the header only the sort
        of a value that the loop computes is known, number or pointer; and with homes its range, if
        `ranges` has one. If a jump back contradicts that, nothing is known of the value, and the
        analysis is repeated."""
        loops, order, lost = self.loops(), self.reached(), {}
        while True:
            at, ways = {self.first: dict(start)}, {}
            for name in order:
                if name in loops:
                    changed = self.changed(loops[name].blocks)
                    left = {it: one for it, one in at[name].items() if it not in lost.get(name, ())}
                    ranges = self.ranges if by_homes else {}
                    at[name] = {it: in_any_turn(one, ranges.get((name, it))) if it in changed else one for it, one in left.items()}
                now, block = dict(at[name]), self.blocks[name]
                for one in block.code:
                    self.step(one, now, by_homes)
                for to, holds in ((block.jumps, True), (block.falls, False)):
                    if to is not None:
                        way = narrowed(block.code[-1], now, holds) if block.jumps is not None else dict(now)
                        ways[name, to] = join(ways[name, to], way) if (name, to) in ways else way
                for to in set(block.after):
                    at[to] = join(at[to], ways[name, to]) if to in at else dict(ways[name, to])
            backs = [(ways[back, loop.head], loop.head) for loop in loops.values() for back in loop.backs]
            more = {(head, it) for way, head in backs for it, one in at[head].items() if sort(way.get(it)) != sort(one)}
            if not more:
                return at, ways
            for head, it in more:
                lost.setdefault(head, set()).add(it)

    def changed(self, names):
        """Returns the registers and homes that these blocks write."""
        return set().union(*(one.writes() | {self.home(one, ST, STX)} for name in names for one in self.blocks[name].code)) - {None}

    def home(self, one, *kinds):
        """Returns the home that an instruction of these kinds loads or stores, or None."""
        base = one.by if one.kind == LDX else one.to
        return one.offset if one.kind in kinds and base == FRAME and one.offset in self.homes else None

    def step(self, one, now, by_homes=True):
        """Updates the facts by an instruction."""
        home = self.home(one, LDX, ST, STX) if by_homes else None
        if one.opcode == CALL:
            now[0] = (0, 1024) if not one.calls and one.imm == 1 else ANY
            for it in range(1, 6):
                now.pop(it, None)
        elif one.kind in (ST, STX):
            put(now, home, single(one.imm) if one.kind == ST else now.get(one.by))
        elif one.opcode == LDDW:
            now[one.to] = single(one.imm & 0xFFFFFFFF | (one.high & 0xFFFFFFFF) << 32)
        elif one.kind == LDX:
            size = {0x61: 32, 0x69: 16, 0x71: 8}.get(one.opcode, 64)
            put(now, one.to, now.get(home) or (0, (1 << size) - 1))
        elif one.kind in (ALU32, ALU64):
            put(now, one.to, computed(one, now))


def moved(one, after):
    """Returns code that adds the number to the pointer, for a pointer that is added to a number.

    Without a free register, the instruction is unchanged."""
    if one.by not in after and one.by != FRAME:
        return [one.like(ADD_REGISTER, to=one.by, by=one.to), one.like(MOVE_REGISTER)]
    spare = next((it for it in range(10) if it not in after and it not in (one.to, one.by)), None)
    if spare is None:
        return [one]
    return [one.like(MOVE_REGISTER, to=spare), one.like(ADD_REGISTER, to=spare, by=one.to), one.like(MOVE_REGISTER, by=spare)]


def put(now, place, known):
    """Sets the fact about a register or home."""
    if known is not None and place is not None:
        now[place] = known
    else:
        now.pop(place, None)


def forward(first, after):
    """Returns the nodes reachable from the first in topological order, apart from jumps back.

    If possible, a node's last successor is next to it. Also returns the target of the first jump
    back, or None."""
    done, path, order, back = set(), {}, [], None
    path[first] = iter(after[first])
    while path:
        one = next(reversed(path))
        to = next((it for it in path[one] if it not in done), None)
        if to is None:
            path.pop(one)
            done.add(one)
            order.append(one)
        elif to in path:
            back = to if back is None else back
        else:
            path[to] = iter(after[to])
    return order[::-1], back


def shifted(known, by):
    """Returns the facts about a number plus a constant; None if it might exceed 2^64 or be below
    0."""
    return (known[0] + by, known[1] + by) if is_number(known) and 0 <= known[0] + by and known[1] + by <= ANY[1] else None


def is_number(known):
    return isinstance(known, tuple)


def is_pointer(known):
    return known == POINTER or isinstance(known, Request)


def in_any_turn(known, ends):
    """Returns the facts about a value that a loop changes: a number's ends, if they are known."""
    return ends if is_number(known) and ends else any_such(known)


def any_such(known):
    """Returns any number for a number, and any pointer for a pointer."""
    return ANY if is_number(known) else POINTER if is_pointer(known) else None


def sort(known):
    return "number" if is_number(known) else POINTER if is_pointer(known) else None


def join(one, other):
    """Returns the facts that hold on both paths."""
    found = {}
    for it in one.keys() & other.keys():
        mine, yours = one[it], other[it]
        if is_number(mine) and is_number(yours):
            found[it] = min(mine[0], yours[0]), max(mine[1], yours[1])
        elif mine == yours:
            found[it] = mine
        elif is_pointer(mine) and is_pointer(yours):
            found[it] = POINTER
    return found


def single(number):
    return (number & ANY[1],) * 2


def computed(one, now):
    """Returns the facts about the result of arithmetic. A 32-bit result is a number, whatever its
    operands."""
    code, left = one.opcode >> 4, now.get(one.to)
    right = now.get(one.by) if one.takes_register and code not in (8, 13) else single(one.imm)
    if one.opcode == MOVE_REGISTER and not one.offset:
        return right
    if one.kind == ALU32:
        return single(one.imm & 0xFFFFFFFF) if code == 11 and not one.takes_register else (0, (1 << 32) - 1)
    if one.opcode == MOVE:
        return right
    if code in (0, 1) and not (is_number(left) and is_number(right)):
        if isinstance(left, Request) and not one.takes_register:
            return Request(left.at + (one.imm if code == 0 else -one.imm))
        return POINTER if is_pointer(left) and is_number(right) or is_pointer(right) and is_number(left) else None
    if not is_number(left) or not is_number(right):
        return ANY
    (least, most), (low, high) = left, right
    if code == 0:
        low, high = (low - (1 << 64), high - (1 << 64)) if low >> 63 else (low, high)
        return within(least + low, most + high)
    if code == 1:
        return within(least - high, most - low)
    if code == 5:
        return 0, min(most, high)
    if code in (6, 7) and low == high:
        return within(least << (low & 63), most << (low & 63)) if code == 6 else (least >> (low & 63), most >> (low & 63))
    if code == 12 and low == high and not most >> 63:
        return least >> (low & 63), most >> (low & 63)
    if code == 2:
        return within(least * low, most * high)
    if code == 3 and low and not one.offset:
        return least // high, most // low
    if code == 9 and low and not one.offset:
        return 0, min(most, high - 1)
    return ANY


def within(least, most):
    return (least, most) if 0 <= least and most <= ANY[1] else ANY


def narrowed(one, now, holds):
    """Returns the facts if a condition holds, or doesn't.

    The condition is an unsigned comparison of a 64-bit register with a known number."""
    code = one.opcode >> 4
    code = code if holds else INVERSE.get(code)
    right = now.get(one.by) if one.takes_register else single(one.imm)
    now = dict(now)
    if one.kind != JMP or code is None or not is_number(now.get(one.to)) or not is_number(right):
        return now
    if code == EQUAL or code == 5 and right[0] == right[1]:
        now[one.to] = equal(now[one.to], right) if code == EQUAL else unequal(now[one.to], right[0])
    ends = {2: (right[0] + 1, None), 3: (right[0], None), 10: (None, right[1] - 1), 11: (None, right[1])}
    if code in ends:
        now[one.to] = cut(now[one.to], *ends[code])
    if one.takes_register and code in ends:
        left = now[one.to]
        other = {2: (None, left[1] - 1), 3: (None, left[1]), 10: (left[0] + 1, None), 11: (left[0], None)}
        now[one.by] = cut(right, *other[code])
    return now


def cut(known, least, most):
    """Returns a number restricted to these ends; unchanged if that leaves none."""
    low, high = max(known[0], least or 0), min(known[1], ANY[1] if most is None else most)
    return (low, high) if low <= high else known


def equal(known, right):
    return cut(known, *right)


def unequal(known, number):
    low, high = known
    return cut(known, low + (low == number), high - (high == number))

"""Loads, stores, comparisons and replies by offsets instead of pointers.

An image's loop may not compute a pointer, and an index needs a bound that the verifier sees. So an
access at a computed address of a known object (offsets.py) calls a helper with its offset
(helpers.py). The results are the same inside the object, which is all that C defines."""
import re

from fcc_ir.helpers import HEAD_WORDS, READING_WORDS, REPLY_PUT
from fcc_ir.offsets import FIELDS, MOST_WORDS, PAYLOAD, QUERY, READINGS, REQUEST, ROOM, TABLE, VARIABLES, Offsets
from fcc_ir.text import DEFINES, LABEL, VALUE, parts, quoted, typed, without_types

LOOPS, COMPUTED, ALL = "loops", "computed", "all"  # the accesses: at computed addresses in loops, at computed addresses, also at constant ones
MOST_PLACES, MOST_COPIED = 40, 64  # bytes of an object of which a reply begins anywhere, and of a reply that is copied first
ACCESS = re.compile(r"  (?:(\S+) = )?(load|store) (.*)")
COMPARISON = re.compile(rf"  ({VALUE}) = icmp (?:samesign )?(\w+) (ptr|[^,]*\*) ([^,]*), ([^,]*)((?:, !.*)?)$")
REPLY = re.compile(r"  (\S+) = (?:tail )?call i64 inttoptr \(i64 5 to [^@]*?\)\(((?:ptr|i8\*)[^@]*)\)( #\d+)?(, !dbg !\d+)?")
LIFETIME = re.compile(rf"  (?:tail )?call void @llvm\.lifetime[^(]*\(i64 [^,]*, [^%]*({VALUE})\)")
CAPTURES = re.compile(r"\b(?:nocapture|readonly|readnone|writeonly|captures\([^()]*\)) ")
READ_ONLY = (REQUEST, QUERY, PAYLOAD, READINGS, TABLE)
GIVEN = (REQUEST, QUERY, PAYLOAD, VARIABLES, READINGS)  # objects that a run gets: accessed by helpers also at constant places


class Rewriting:
    """A function whose accesses are by offsets."""

    def __init__(self, function, layout, constants, entry, where, helpers, variables):
        self.function, self.layout, self.where, self.helpers, self.variables = function, layout, where, helpers, variables
        self.offsets = Offsets(function, layout, constants, entry, variables)
        self.in_loops = {name for name in function.after if name in function.reached(name)}
        self.copied, self.rooms, self.changed = {}, [], set()  # objects that are copied to the stack, with their words; further stack memory; stack memory that changes

    def pointer(self, kind):
        return "ptr" if self.helpers.is_opaque else f"{kind}*"

    def rewritten(self):
        """Returns the function's lines."""
        instead = {}
        for at, line in enumerate(self.function.lines):
            access, reply, comparison = ACCESS.match(line), REPLY.match(line), COMPARISON.match(line)
            made = None
            if access and " volatile " not in line and " atomic " not in line:
                made = self.access(at, *access.groups())
            elif reply and self.where != LOOPS:
                made = self.reply(at, reply)
            elif comparison:
                made = self.comparison(at, comparison)
            if made:
                instead[at] = made
        beside, found = self.offsets.beside(), [CAPTURES.sub("", self.function.lines[0])]
        first = [*self.rooms, *(it for region, count in self.copied.items() for it in self.copies(region, count))]
        for at, line in enumerate(self.function.lines[1:], 1):
            if first and not LABEL.match(line):
                found, first = [*found, *first], []
            ended = LIFETIME.match(line)
            if ended and self.offsets.root(ended[1]) in self.changed:
                continue  # an earlier store would be undefined
            value = DEFINES.match(line)
            if value and value[2] == "alloca" and self.offsets.regions.get(value[1]) in self.changed:
                found += self.room(value[1])
                continue
            found += instead.get(at, [line]) + beside.get(at, [])
        return found

    def room(self, name):
        """Makes a local variable of words, which are zero at first."""
        region, new = self.offsets.regions[name], quoted(name, "a")
        words = f"[{-(-region.size // 8)} x i64]"
        made = [f"  {new} = alloca {words}, align 8", f"  {name} = bitcast {self.pointer(words)} {new} to {self.pointer(region.pointer)}"]
        return [*made, f"  store {words} zeroinitializer, {self.pointer(words)} {new}, align 8"]

    def is_wanted(self, at, region, pointer):
        """Returns whether an access of this object becomes one by an offset."""
        is_computed = self.offsets.is_computed(pointer)
        if self.where == LOOPS:
            return is_computed and self.function.block_of[at] in self.in_loops
        return is_computed or self.where == ALL and region.kind in GIVEN

    def is_within(self, region, pointer, size):
        """Returns whether an access at a constant place of the variables is inside them. If not,
        fcasm refuses it, as it should."""
        if region.kind != VARIABLES or self.offsets.is_computed(pointer):
            return True
        place = self.offsets.place(pointer)
        return place is not None and 0 <= place <= self.variables - size

    def access(self, at, name, operation, words):
        """Returns the lines that replace a load or a store; None if it is unchanged."""
        plain = words.partition(", !")[0]
        given = parts(plain)
        kind, value = (given[0], None) if operation == "load" else typed(given[0])
        pointer = typed(given[1])[1]
        region = self.offsets.root(pointer)
        if not re.fullmatch(r"i(8|16|32|64)", kind) or not region or operation == "store" and region.kind in READ_ONLY:
            return None
        size = int(kind[1:]) // 8
        if not self.is_wanted(at, region, pointer) or not self.is_within(region, pointer, size):
            return None
        alignment = int((re.search(r"align (\d+)", plain) or [0, 1])[1])
        part = min(size, alignment or 1)
        names = self.names_of(region, part)
        if names is None:
            return None
        if region.kind == ROOM:
            self.changed.add(region)
        base, note = f'%"fc.b.{at}', self.function.note_at(at)
        made, more, shift = self.memory(region, base)
        places = []
        for it in range(0, size, part):
            made.append(f'  {base}.o{it}" = add i64 {self.offsets.offset(pointer)}, {it + shift}')
            places.append((it, f'{base}.o{it}"'))
        if operation == "load":
            return made + self.load(base, name, kind, names[0], more, places, note)
        return made + self.store(base, value, kind, names[1], more, places, note)

    def load(self, base, name, kind, helper, more, places, note):
        made, total = [], "0"
        for it, place in places:
            made += [f'  {base}.v{it}" = call i64 @{helper}({more}i64 {place}){note}', f'  {base}.s{it}" = shl i64 {base}.v{it}", {8 * it}']
            made.append(f'  {base}.t{it}" = or i64 {total}, {base}.s{it}"')
            total = f'{base}.t{it}"'
        return [*made, f"  {name} = trunc i64 {total} to {kind}" if kind != "i64" else f"  {name} = add i64 {total}, 0"]

    def store(self, base, value, kind, helper, more, places, note):
        made = [f'  {base}.x" = zext {kind} {value} to i64' if kind != "i64" else f'  {base}.x" = add i64 {value}, 0']
        for it, place in places:
            made += [f'  {base}.y{it}" = lshr i64 {base}.x", {8 * it}', f'  call void @{helper}({more}i64 {place}, i64 {base}.y{it}"){note}']
        return made

    def names_of(self, region, size):
        """Returns the functions that load and store this many bytes of an object; None if it has
        too many words."""
        make, kind = self.helpers, region.kind
        if kind == PAYLOAD:
            return make.payload(size), None
        if kind == QUERY:
            return make.words(HEAD_WORDS, size), None
        if kind == REQUEST:
            return make.request(size), None
        if kind == READINGS:
            return make.words(READING_WORDS, size), None
        if kind == VARIABLES:
            return make.variables(size), make.variables(size, writes=True)
        count = -(-region.size // 8)
        if count > MOST_WORDS:
            return None
        return (make.table(region, size), None) if kind == TABLE else (make.words(count, size), make.words(count, size, writes=True))

    def memory(self, region, base):
        """Returns the lines that compute a function's address argument, that address, and the
        number added to the offset."""
        if region.kind in (PAYLOAD, VARIABLES, TABLE):
            return [], "", 0
        shift = FIELDS["7"][1] if region.kind == QUERY else 0
        whole = self.offsets.regions[self.offsets.request] if region.kind == QUERY else region
        words = self.pointer("i64")
        if self.where == ALL and whole.kind in (REQUEST, READINGS):
            self.copied[whole] = HEAD_WORDS if whole.kind == REQUEST else READING_WORDS
            return [f'  {base}.p" = bitcast {self.pointer(f"[{self.copied[whole]} x i64]")} {quoted(whole.name, "c")} to {words}'], f'{words} {base}.p", ', shift
        kind = self.pointer(whole.pointer) if whole.kind == ROOM else whole.pointer
        return [f'  {base}.p" = bitcast {kind} {whole.name} to {words}'], f'{words} {base}.p", ', shift

    def copies(self, region, count):
        """Returns the lines that copy an object's words to the stack, from where they are
        numbers."""
        new, words = quoted(region.name, "c")[:-1], self.pointer("i64")
        room = f"[{count} x i64]"
        made = [f'  {new}" = alloca {room}, align 8', f'  {new}.s" = bitcast {region.pointer} {region.name} to {words}']
        for it in range(count):
            made += [f'  {new}.p{it}" = getelementptr i64, {words} {new}.s", i64 {it}', f'  {new}.l{it}" = load i64, {words} {new}.p{it}", align 8']
            made.append(f'  {new}.v{it}" = call i64 asm "", "=r,0"(i64 {new}.l{it}")')
            made.append(f'  {new}.q{it}" = getelementptr {room}, {self.pointer(room)} {new}", i64 0, i64 {it}')
            made.append(f'  store i64 {new}.v{it}", {words} {new}.q{it}", align 8')
        return made

    def comparison(self, at, found):
        """Returns a comparison of offsets for one of pointers into one object, or with null; None
        if it is unchanged."""
        name, code, _, left, right, notes = found.groups()
        regions = {self.offsets.root(it) for it in (left, right)} - {None}
        is_computed = self.offsets.is_computed(left) or self.offsets.is_computed(right)
        if len(regions) != 1 or not next(iter(regions)) or not is_computed or self.where == LOOPS and self.function.block_of[at] not in self.in_loops:
            return None
        code = code.replace("u", "s") if code not in ("eq", "ne") else code  # an offset may be negative
        return [f"  {name} = icmp {code} i64 {self.offsets.offset(left)}, {self.offsets.offset(right)}{notes}"]

    def reply(self, at, found):
        """Returns the lines for a reply_put of a computed address, or of the payload or the
        variables; None if it is unchanged."""
        name, given, note = found[1], [typed(it) for it in parts(found[2])], self.function.note_at(at)
        (_, pointer), (_, count) = given
        region = self.offsets.root(pointer)
        if not region or region.kind == TABLE:
            return None
        base, size, bytes_of = f'%"fc.b.{at}', int(count) if count.isdecimal() else 0, self.pointer("i8")
        if region.kind == ROOM:
            if not self.offsets.is_computed(pointer) or region.size > MOST_PLACES:
                return None
            self.changed.add(region)
            made = [f'  {base}.p" = bitcast {self.pointer(region.pointer)} {region.name} to {bytes_of}']
            return [*made, f'  {name} = call i64 @{self.helpers.reply(region.size)}({bytes_of} {base}.p", i64 {self.offsets.offset(pointer)}, i64 {count}){note}']
        if self.where != ALL or region.kind not in (PAYLOAD, VARIABLES) or not 0 < size <= MOST_COPIED:
            return None
        if region.kind == VARIABLES and (self.offsets.is_computed(pointer) or not self.is_within(region, pointer, size)):
            return None
        return self.copied_reply(base, name, region, pointer, size, note)

    def copied_reply(self, base, name, region, pointer, size, note):
        """Returns the lines for a reply of bytes that are copied to the stack first."""
        part = 8 if region.kind == VARIABLES and self.offsets.place(pointer) % 8 == 0 else 1
        helper, words, bytes_of = self.names_of(region, part)[0], f"[{-(-size // 8)} x i64]", self.pointer("i8")
        self.rooms.append(f'  {base}.a" = alloca {words}, align 8')
        made = [f'  {base}.q" = bitcast {self.pointer(words)} {base}.a" to {bytes_of}']
        for it in range(0, size, part):
            made += [f'  {base}.o{it}" = add i64 {self.offsets.offset(pointer)}, {it}', f'  {base}.v{it}" = call i64 @{helper}(i64 {base}.o{it}"){note}']
            made.append(f'  {base}.g{it}" = getelementptr i8, {bytes_of} {base}.q", i64 {it}')
            if part == 8:
                made += [f'  {base}.h{it}" = bitcast {bytes_of} {base}.g{it}" to {self.pointer("i64")}', f'  store i64 {base}.v{it}", {self.pointer("i64")} {base}.h{it}", align 8']
            else:
                made += [f'  {base}.t{it}" = trunc i64 {base}.v{it}" to i8', f'  store i8 {base}.t{it}", {bytes_of} {base}.g{it}", align 1']
        to = without_types(REPLY_PUT) if self.helpers.is_opaque else REPLY_PUT
        return [*made, f'  {name} = call i64 inttoptr ({to})({bytes_of} {base}.q", i64 {size}){note}']

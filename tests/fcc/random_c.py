"""Random programs in C for tests/fcc/fuzz.

Each is defined by C except that signed numbers wrap (-fwrapv), and has the constructs of the
requested parts."""
import random

PARTS = ("division", "computed", "library", "replies", "objects", "functions", "nulls", "levels")
NUMBERS = {"fc_u8": 8, "fc_u16": 16, "fc_u32": 32, "fc_u64": 64, "fc_i8": 8, "fc_i16": 16, "fc_i32": 32, "fc_i64": 64, "int": 32}
WORDS = ["on", "off", "abc", "a", "temp=", "status", "hello world", "0123456789"]


class Program:
    """A program by a seed, with the constructs of some parts."""

    def __init__(self, seed, parts=PARTS):
        self.some, self.parts = random.Random(seed), set(parts)
        self.count, self.loops = 0, 0
        self.tables, self.fields, self.locals, self.arrays, self.functions = [], [], [], [], []
        self.levels, self.counters, self.given = [], [], ("length", "request->method")

    def one(self, *them):
        return self.some.choice(them)

    def is_true(self, chance):
        return self.some.random() < chance

    def name(self, of):
        self.count += 1
        return f"{of}{self.count}"

    def constant(self):
        return self.one(*map(str, range(10)), "10", "16", "100", "255", "256", "1000", "-1", "-3", "-100", "65535", "0x7fffffff", "86400", f"{self.some.randrange(1 << 16)}")

    # Expressions

    def index(self, count, depth):
        """Returns an index below a count."""
        if self.counters and self.is_true(0.6):
            counter, most = self.one(*self.counters)
            if most <= count:
                return self.one(counter, counter, f"{count - 1} - {counter}" if most <= count else counter)
            return f"({counter} + {self.some.randrange(4)}) % {count}"
        if "computed" not in self.parts or self.is_true(0.3):
            return str(self.some.randrange(count))
        inner = self.value(depth - 1)
        return f"((fc_u64)({inner}) & {count - 1})" if count & (count - 1) == 0 else f"((fc_u64)({inner}) % {count})"

    def load(self, depth):
        """Returns a load of one of the objects."""
        kinds = ["payload", "query", "field", "number", "readings", "wide"]
        kinds += ["table"] * 2 * bool(self.tables) + ["array"] * 2 * bool(self.arrays)
        kind = self.one(*kinds)
        if kind == "payload":
            return f"request->payload[{self.index(self.one(8, 16, 20, 64, 1024), depth)}]"
        if kind == "wide":
            return self.one(f"*(const fc_u16 *)(request->payload + {2 * self.some.randrange(9)})", f"*(const fc_u32 *)(request->payload + 4 * {self.index(8, depth)})", "*(const fc_i32 *)readings->sensors", "*(const fc_u64 *)(request->payload + 8)")
        if kind == "query":
            return f"request->query[{self.index(64, depth)}]"
        if kind == "readings":
            return self.one(f"readings->sensors[{self.index(56, depth)}]", "readings->clock", f"((const fc_i16 *)readings->sensors)[{self.index(8, depth)}]")
        if kind == "table":
            name, count = self.one(*self.tables)
            return f"{name}[{self.index(count, depth)}]"
        if kind == "array":
            name, count, _ = self.one(*self.arrays)
            return f"{name}[{self.index(count, depth)}]"
        return self.place(depth)

    def place(self, depth):
        """Returns a place in the variables that may be stored to."""
        name, count, inner = self.one(*self.fields)
        if not count:
            return f"s->{name}"
        return f"s->{name}[{self.index(count, depth)}]{'.' + self.one(*inner) if inner else ''}"

    def value(self, depth):
        if depth <= 0:
            return self.one(self.constant(), *(it for it, _ in self.locals), *(it for it, _ in self.counters), *self.given)
        kind = self.some.randrange(12)
        left = self.value(depth - 1)
        if kind < 3:
            return self.load(depth)
        if kind < 6:
            return f"({left} {self.one('+', '-', '*', '&', '|', '^')} {self.value(depth - 1)})"
        if kind == 6:
            return f"({left} {self.one('<<', '>>')} {self.some.randrange(8)})" if self.is_true(0.5) else f"((fc_u32)({left}) >> {self.some.randrange(16)})"
        if kind == 7:
            return f"({left} {self.one('<', '>', '<=', '>=', '==', '!=')} {self.value(depth - 1)})"
        if kind == 8:
            return f"({self.condition(depth - 1)} ? {left} : {self.value(depth - 1)})"
        if kind == 9:
            return f"(({self.one(*NUMBERS)})({left}))"
        if kind == 10 and self.functions and "functions" in self.parts:
            return f"{self.one(*self.functions)}({left}, {self.value(depth - 1)})"
        if "division" in self.parts:
            by = self.one("3", "7", "10", "-2", "-9", "100", "1000", f"(({self.value(depth - 2)} & 7) + 1)", f"(({self.value(depth - 2)} & 15) - 17)")
            return f"(({self.one('int', 'fc_i64', 'fc_i32', 'fc_i16', 'fc_u32', 'fc_u64')})({left}) {self.one('/', '%')} {by})"
        return left

    def condition(self, depth):
        kinds = ["compare"] * 4 + ["and"]
        kinds += ["memcmp", "query"] * ("library" in self.parts)
        kind = self.one(*kinds)
        if kind == "memcmp":
            word = self.one(*WORDS)
            return f'memcmp(request->payload + {self.some.randrange(5)}, "{word}", {self.some.randrange(1, len(word) + 1)}) {self.one("==", "!=", "<")} 0'
        if kind == "query":
            return f'fc_query_is(request, "{self.one("on", "off", "abc", "a")}")'
        if kind == "and" and depth > 0:
            return f"({self.condition(depth - 1)} {self.one('&&', '||')} {self.condition(depth - 1)})"
        return f"{self.value(depth)} {self.one('<', '>', '<=', '>=', '==', '!=')} {self.value(0)}"

    # Statements

    def block(self, depth, indent):
        return [line for _ in range(self.some.randrange(1, 4)) for line in self.statement(depth, indent)]

    def statement(self, depth, indent):
        pad = "    " * indent
        kinds = ["set"] * 4 + ["store"] * 3 + ["byte"] * 2 + ["notify"]
        kinds += (["if"] * 3 + ["loop"] * 3 * (self.loops < 3)) * (depth > 0)
        kinds += ["array"] * 2 * bool(self.arrays)
        kinds += ["library"] * 2 * ("library" in self.parts and bool(self.arrays)) + ["reply"] * 2 * ("replies" in self.parts) + ["text"] * ("objects" in self.parts and depth > 0 and self.loops < 3)
        kinds += ["null"] * ("nulls" in self.parts and depth > 0 and self.loops < 3)
        kinds += ["to_zero"] * ("levels" in self.parts and depth > 0 and self.loops < 3) + ["recursion"] * bool(self.levels)
        kind = self.one(*kinds)
        if kind == "set":
            return [f"{pad}{self.one(*(it for it, _ in self.locals))} {self.one('=', '=', '+=', '-=', '^=')} {self.value(2)};"]
        if kind == "store":
            return [f"{pad}{self.place(1)} {self.one('=', '=', '+=', '-=', '^=', '|=')} {self.value(2)};"]
        if kind == "array":
            name, count, is_fixed = self.one(*self.arrays)
            return [f"{pad}{name}[{self.index(count, 1)}] = {self.value(2)};"]
        if kind == "byte":
            return [f"{pad}reply_byte({self.value(1)});"]
        if kind == "notify":
            return [f"{pad}if ({self.condition(1)})", f"{pad}    notify();"]
        if kind == "if":
            found = [f"{pad}if ({self.condition(1)}) {{", *self.block(depth - 1, indent + 1)]
            if self.is_true(0.4):
                found += [f"{pad}}} else {{", *self.block(depth - 1, indent + 1)]
            return [*found, f"{pad}}}"]
        return getattr(self, kind)(depth, indent, pad)

    def loop(self, depth, indent, pad):
        self.loops += 1
        name, most = self.name("i"), self.one(3, 4, 5, 8, 8, 12, 16, 24)
        kind, inside = self.some.randrange(7), []
        self.counters.append((name, most))
        inside = self.block(depth - 1, indent + 1)
        if self.is_true(0.3):
            inside += [f"{pad}    if ({self.condition(1)})", f"{pad}        {self.one('break', 'continue') if kind < 3 else 'break'};"]
        self.counters.pop()
        self.loops -= self.is_true(0.5)
        kind_of = self.one("int", "fc_u64", "fc_u32")
        if kind == 0:
            return [f"{pad}for ({kind_of} {name} = 0; {name} < {most}; {name}++) {{", *inside, f"{pad}}}"]
        if kind == 1:
            return [f"{pad}for (fc_u64 {name} = 0; {name} < length && {name} < {most}; {name}{self.one('++', ' += 2')}) {{", *inside, f"{pad}}}"]
        if kind == 2:
            return [f"{pad}for (int {name} = {most - 1}; {name} >= 0; {name}--) {{", *inside, f"{pad}}}"]
        if kind == 3:
            return [f"{pad}int {name} = 0;", f"{pad}while ({name} < {most} && {self.condition(1)}) {{", *inside, f"{pad}    {name}++;", f"{pad}}}"]
        if kind == 4:
            left = self.name("n")
            return [f"{pad}{self.one('fc_u32', 'fc_u64')} {left} = {self.value(1)};", f"{pad}int {name} = 0;", f"{pad}do {{", *inside, f"{pad}    reply_byte('0' + {left} % 10);",
                    f"{pad}    {left} /= 10;", f"{pad}    if (++{name} == {most})", f"{pad}        {name} = 0;", f"{pad}}} while ({left});"]
        if kind == 5:
            at = self.name("p")
            return [f"{pad}int {name} = 0;", f"{pad}for (const fc_u8 *{at} = request->payload, *e{at} = {at} + (length < {most} ? length : {most}); {at} < e{at}; {at}++) {{", *inside,
                    f"{pad}    {self.one(*(it for it, _ in self.locals))} {self.one('+=', '^=')} *{at};", f"{pad}    {name}++;", f"{pad}}}"]
        return [f"{pad}fc_u64 {name} = 0;", f"{pad}do {{", *inside, f"{pad}    {name} += {self.one(1, 1, 2)};", f"{pad}}} while ({name} < {most});"]

    def text(self, depth, indent, pad):
        """Returns a loop that only an object's end bounds."""
        self.loops += 1
        at, word = self.name("t"), self.one(*WORDS)
        kind = self.some.randrange(3)
        if kind == 0:
            return [f'{pad}for (const char *{at} = "{word}"; *{at}; {at}++)', f"{pad}    reply_byte(*{at} ^ {self.value(0)});"]
        if kind == 1:
            return [f"{pad}fc_u64 {at} = 0;", f'{pad}while ("{word}"[{at}] && "{word}"[{at}] == request->payload[{at}])', f"{pad}    {at}++;", f"{pad}reply_byte({at});"]
        room, left = self.name("room"), self.name("n")
        return [f"{pad}char {room}[24];", f"{pad}int {at} = 0;", f"{pad}fc_u32 {left} = {self.value(1)};", f"{pad}do {{", f"{pad}    {room}[{at}++] = '0' + {left} % 10;", f"{pad}    {left} /= 10;",
                f"{pad}}} while ({left});", f"{pad}while ({at}{self.one('', ' > 0')})", f"{pad}    reply_byte({room}[--{at}]);"]

    def null(self, depth, indent, pad):
        """Returns a pointer to an item, or null."""
        self.loops += 1
        best, at = self.name("best"), self.name("i")
        return [f"{pad}struct item *{best} = 0;", f"{pad}for (int {at} = 0; {at} < 4; {at}++)", f"{pad}    if (s->items[{at}].a {self.one('>', '<', '!=')} {self.value(0)} && (!{best} || s->items[{at}].b {self.one('<', '>')} {best}->b))",
                f"{pad}        {best} = &s->items[{at}];", f"{pad}if ({best}) {{", f"{pad}    {best}->c += {self.value(1)};", f"{pad}    reply_byte({best}->b);", f"{pad}}}"]

    def to_zero(self, depth, indent, pad):
        """Returns loops that continue until a number is large enough, or zero."""
        self.loops += 1
        unit, most, kind = self.name("u"), self.name("n"), self.one("fc_u32", "fc_u64")
        by, less = self.one(2, 4, 6, 10, 10, 12), self.one("/= 10", "/= 3", "/= 2", ">>= 1", ">>= 4")
        found = [f"{pad}{kind} {most} = (fc_u64)({self.value(1)}) & 0xffffff, {unit} = {self.one('1', '1', '3', most)};"]
        if self.is_true(0.5):
            found += [f"{pad}{unit} = 1;", f"{pad}while ({unit} * {by} {self.one('<=', '<')} {most})", f"{pad}    {unit} *= {by};"]
        if self.is_true(0.3):
            return [*found, f"{pad}for (; {unit} > {self.one(0, 1, 5)}; {unit} {less}) {{", *self.block(depth - 1, indent + 1), f"{pad}}}", f"{pad}reply_byte({unit});"]
        return [*found, f"{pad}while ({unit}{self.one('', ' > 0', ' != 0')}) {{", f"{pad}    reply_byte('0' + {most} / {unit} % 10);", f"{pad}    {unit} {less};", f"{pad}}}"]

    def recursion(self, depth, indent, pad):
        name, gives = self.one(*self.levels)
        call = f"{name}({self.value(1)}{', 0' if gives else ''})"
        return [f"{pad}reply_byte({call});" if gives else f"{pad}{call};"]

    def recursive(self):
        """Returns a function that calls itself with its parameter divided."""
        name, kind, gives = self.name("r"), self.one("fc_u8", "fc_u16", "fc_u32", "int", "fc_u64"), self.is_true(0.5)
        by = self.one("/ 10", "/ 10", "/ 7", "/ 16", ">> 4")
        asks = self.one("n >= 10", "n > 9", "n > 0", "n >= 2", "n > 100")
        if gives:
            return (name, True), [f"static int {name}({kind} n, int sum)", "{", f"    if ({asks})", f"        return {name}(n {by}, sum {self.one('+', '^')} n % 10){self.one('', ' + 1')};", f"    return sum {self.one('+', '*')} n;", "}"]
        lines = [f"    if ({asks})", f"        {name}(n {by});", f"    reply_byte('0' + n % 10);"]
        return (name, False), [f"static void {name}({kind} n)", "{", *(lines if self.is_true(0.7) else [lines[2], *lines[:2]]), "}"]

    def library(self, depth, indent, pad):
        name, count, is_bytes = self.one(*self.arrays)
        size = count * (NUMBERS[is_bytes] // 8)
        kind = self.some.randrange(3)
        if kind == 0:
            return [f"{pad}memset({name}, {self.value(0)}, {self.one(size, f'length < {size} ? length : {size}')});"]
        if kind == 1:
            return [f"{pad}memcpy({name}, request->payload + {self.one(0, 0, 1, 8)}, {self.one(size, f'length < {size} ? length : {size}')});"]
        return [f'{pad}reply_byte(strlen("{self.one(*WORDS)}") + memcmp({name}, request->payload, {self.one(1, 2, 4, size, f"length < {size} ? length : {size}")}));']

    def reply(self, depth, indent, pad):
        if self.arrays and self.is_true(0.6):
            name, count, kind = self.one(*self.arrays)
            step = NUMBERS[kind] // 8
            if self.is_true(0.5):
                at = self.name("n")
                return [f"{pad}fc_u64 {at} = {self.index(count, 1)};", f"{pad}reply_put({name} + {at}, {step} * ({count} - {at}));"]
            return [f"{pad}reply_put({name}, {step * count});"]
        if self.is_true(0.5):
            return [f"{pad}reply_put(request->payload, {self.one('length', 4, 8, 13)});"]
        return [f"{pad}reply_put(s, {self.one(4, 8, 16)});"]

    def function(self):
        name = self.name("f")
        kept, self.locals, self.counters = (self.locals, self.counters), [("x", "int"), ("y", "int")], []
        arrays, self.arrays, functions, self.functions = self.arrays, [], self.functions, []
        kept_given, self.given, loads, condition = self.given, (), self.load, self.condition
        self.load, self.condition = lambda depth: self.constant(), lambda depth: f"{self.value(0)} < {self.value(0)}"
        kind = self.one("int", "fc_i64", "fc_u32")
        lines = [f"static {self.one('', '', 'FC_FUNCTION ').replace('static ', '')}{kind} {name}({kind} x, {kind} y)".replace("static FC_FUNCTION", "FC_FUNCTION"), "{", f"    if ({self.value(1)} > {self.constant()})", f"        return {self.value(2)};", f"    return {self.value(2)};", "}"]
        (self.locals, self.counters), self.arrays, self.functions, self.load, self.condition, self.given = kept, arrays, functions, loads, condition, kept_given
        self.functions.append(name)
        return lines

    def source(self):
        lines = ["#include <fc.h>", "void *memcpy(void *, const void *, __SIZE_TYPE__);", "void *memset(void *, int, __SIZE_TYPE__);", "int memcmp(const void *, const void *, __SIZE_TYPE__);", "__SIZE_TYPE__ strlen(const char *);"]
        for _ in range(self.some.randrange(3)):
            kind, count = self.one("fc_u8", "fc_i16", "fc_u16", "fc_i32"), self.one(4, 5, 8, 10, 16, 20)
            name = self.name("table")
            lines.append(f"static const {kind} {name}[{count}] = {{ {', '.join(str(self.some.randrange(-1 << 7, 1 << 7) if 'i' in kind else self.some.randrange(1 << 8)) for _ in range(count))} }};")
            self.tables.append((name, count))
        self.fields = [("items", 4, ("a", "b", "c"))]
        members = ["    struct item items[4];"]
        for _ in range(self.some.randrange(2, 5)):
            kind, count, name = self.one(*NUMBERS), self.one(0, 0, 3, 4, 6, 8), self.name("m")
            members.append(f"    {kind} {name}{f'[{count}]' if count else ''};")
            self.fields.append((name, count, ()))
        lines += ["struct item {", "    fc_u8 a;", "    fc_u16 b;", "    fc_i32 c;", "};", "struct state {", *members, "};", "FC_VARS(struct state);"]
        for _ in range(self.some.randrange(3) if "functions" in self.parts else 0):
            lines += self.function()
        if "levels" in self.parts and self.is_true(0.6):
            level, text = self.recursive()
            self.levels.append(level)
            lines += text
        head = []
        for _ in range(3):
            kind, name = self.one(*NUMBERS), self.name("v")
            head.append(f"    {kind} {name} = {self.one(self.constant(), 'length', 'request->payload[0]')};")
            self.locals.append((name, kind))
        for _ in range(self.some.randrange(2)):
            kind, count, name = self.one("fc_u8", "fc_u8", "char", "fc_u16", "fc_i32"), self.one(4, 5, 8, 12, 16), self.name("a")
            kind = "fc_i8" if kind == "char" else kind
            head.append(f"    {kind} {name}[{count}] = {{ {self.constant()} }};")
            self.arrays.append((name, count, kind))
        body = [line for _ in range(self.some.randrange(2, 6)) for line in self.statement(2, 1)]
        end = [f"    reply_byte({name} >> {shift});" for name, kind in self.locals for shift in range(0, min(NUMBERS[kind], 16), 8)]
        code = self.one("FC_OK", "FC_OK", "FC_OK", f"{self.condition(0)} ? FC_OK : FC_BAD_REQUEST")
        lines += ["fc_u64 run(const struct fc_request *request, struct state *s, fc_u64 length, const struct fc_readings *readings)", "{", *head, *body, *end, f"    return {code};", "}"]
        return "\n".join(lines) + "\n"

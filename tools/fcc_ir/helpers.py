"""Functions that load, store and reply by offsets, as LLVM's IR.

They call the helpers of a run, or choose among words at constant places. All but tables and replies
are inlined. An offset outside of the object, which C doesn't define, gives some value, and reaches
nothing outside of the variables or the object."""
from fcc_ir.text import without_types

HEAD_WORDS, READING_WORDS, PAYLOAD_START = 10, 8, 80
PAYLOAD_BYTE, VAR_GET, VAR_PUT, REPLY_PUT = "i64 2 to i64 (i64)*", "i64 3 to i64 (i64)*", "i64 4 to i64 (i64, i64)*", "i64 5 to i64 (i8*, i64)*"


class Helpers:
    """The functions that a module needs, by their names."""

    def __init__(self, is_opaque):
        self.is_opaque, self.made = is_opaque, {}

    def add(self, name, text):
        self.made.setdefault(name, without_types(text) if self.is_opaque else text)
        return name

    def inlined(self, name, parameters, lines, result="i64"):
        return self.add(name, "\n".join([f"define internal {result} @{name}({parameters}) alwaysinline nounwind {{", *lines, "}"]))

    def payload(self, size):
        """Bytes of the payload at an offset in it, with zeros past its end."""
        one = [f"  %b = call i64 inttoptr ({PAYLOAD_BYTE})(i64 %o)", "  %s = lshr i64 %b, 63", "  %m = add i64 %s, -1", "  %n = and i64 %m, 255", "  %r = and i64 %b, %n"]
        self.inlined("fc.payload.get.1", "i64 %o", [*one, "  ret i64 %r"])
        lines, total = [], "0"
        for it in range(size):
            lines += [f"  %o{it} = add i64 %o, {it}", f"  %b{it} = call i64 @fc.payload.get.1(i64 %o{it})", f"  %s{it} = shl i64 %b{it}, {8 * it}", f"  %t{it} = or i64 {total}, %s{it}"]
            total = f"%t{it}"
        return "fc.payload.get.1" if size == 1 else self.inlined(f"fc.payload.get.{size}", "i64 %o", [*lines, f"  ret i64 {total}"])

    def request(self, size):
        """Bytes of the request, of its head or of the payload."""
        lines = [f"  %h = icmp ult i64 %o, {PAYLOAD_START}", "  br i1 %h, label %head, label %payload"]
        lines += ["head:", f"  %a = call i64 @{self.words(HEAD_WORDS, size)}(i64* %p, i64 %o)", "  ret i64 %a"]
        lines += ["payload:", f"  %i = sub i64 %o, {PAYLOAD_START}", f"  %b = call i64 @{self.payload(size)}(i64 %i)", "  ret i64 %b"]
        return self.inlined(f"fc.request.get.{size}", "i64* %p, i64 %o", lines)

    def piece(self, size, word):
        """Returns the lines that return bytes of a word, at the offset %o."""
        if size == 8:
            return [f"  ret i64 {word}"]
        return ["  %i = and i64 %o, 7", "  %s = shl i64 %i, 3", f"  %l = lshr i64 {word}, %s", f"  %r = and i64 %l, {(1 << 8 * size) - 1}", "  ret i64 %r"]

    def put(self, size, word, result):
        """Returns the lines that store bytes of %x into a word, at the offset %o."""
        if size == 8:
            return [f"  {result} = add i64 %x, 0"]
        mask = (1 << 8 * size) - 1
        lines = ["  %i = and i64 %o, 7", "  %s = shl i64 %i, 3", f"  %m = shl i64 {mask}, %s", "  %n = xor i64 %m, -1", f"  %k = and i64 {word}, %n"]
        return [*lines, f"  %y = and i64 %x, {mask}", "  %z = shl i64 %y, %s", f"  {result} = or i64 %k, %z"]

    def variables(self, size, writes=False):
        """Bytes of the variables."""
        head, get = "  %w = lshr i64 %o, 3", f"  %v = call i64 inttoptr ({VAR_GET})(i64 %w)"
        if not writes:
            return self.inlined(f"fc.vars.get.{size}", "i64 %o", [head, get, *self.piece(size, "%v")])
        lines = [head, *([get] if size < 8 else []), *self.put(size, "%v", "%new")]
        lines += [f"  call i64 inttoptr ({VAR_PUT})(i64 %w, i64 %new)", "  ret void"]
        return self.inlined(f"fc.vars.put.{size}", "i64 %o, i64 %x", lines, "void")

    def chosen(self, count, load):
        """Returns the lines that choose among words: `load` gives the lines of a word, the last of
        which defines %l and its number."""
        cases = " ".join(f"i64 {it}, label %w{it}" for it in range(1, count))
        lines = ["  %w = lshr i64 %o, 3", f"  switch i64 %w, label %w0 [ {cases} ]"]
        for it in range(count):
            lines += [f"w{it}:", *load(it), f'  %v{it} = call i64 asm "", "=r,0"(i64 %l{it})', "  br label %have"]
        return [*lines, "have:", "  %v = phi i64 " + ", ".join(f"[ %v{it}, %w{it} ]" for it in range(count))]

    def words(self, count, size, writes=False):
        """Returns bytes of an object of this many words, by a choice among them."""
        lines = self.chosen(count, lambda it: [f"  %p{it} = getelementptr i64, i64* %p, i64 {it}", f"  %l{it} = load i64, i64* %p{it}, align 8"])
        if not writes:
            return self.inlined(f"fc.words.get.{count}.{size}", "i64* %p, i64 %o", [*lines, *self.piece(size, "%v")])
        cases = " ".join(f"i64 {it}, label %x{it}" for it in range(1, count))
        lines += [*self.put(size, "%v", "%new"), f"  switch i64 %w, label %x0 [ {cases} ]"]
        for it in range(count):
            lines += [f"x{it}:", f'  %y{it} = call i64 asm "", "=r,0"(i64 %new)', f"  %q{it} = getelementptr i64, i64* %p, i64 {it}"]
            lines += [f"  store i64 %y{it}, i64* %q{it}, align 8", "  ret void"]
        return self.inlined(f"fc.words.put.{count}.{size}", "i64* %p, i64 %o, i64 %x", lines, "void")

    def table(self, region, size):
        """Returns bytes of a constant, by a choice among its words, in a function that is
        called."""
        name = '"fc.table.' + f'{size}.{region.name.strip("@").strip(chr(34))}"'
        last, pointer = -(-region.size // 8) - 1, region.name if self.is_opaque else f"bitcast ({region.pointer}* {region.name} to i8*)"

        def load(it):
            rest = region.size - 8 * it if it == last else 8
            if rest == 8:
                return [f"  %p{it} = getelementptr i8, i8* {pointer}, i64 {8 * it}", *self.cast(it, "i64"), f"  %l{it} = load i64, i64* %c{it}, align 1"]
            lines, total = [], "0"
            for byte in range(rest):  # the last word ends with the constant
                one = f"{it}b{byte}"
                lines += [f"  %p{one} = getelementptr i8, i8* {pointer}, i64 {8 * it + byte}", f"  %d{one} = load i8, i8* %p{one}, align 1", f"  %e{one} = zext i8 %d{one} to i64"]
                lines += [f"  %s{one} = shl i64 %e{one}, {8 * byte}", f"  %t{one} = or i64 {total}, %s{one}"]
                total = f"%t{one}"
            return [*lines, f"  %l{it} = add i64 {total}, 0"]

        lines = [f"define internal i64 @{name}(i64 %o) noinline nounwind {{", *self.chosen(last + 1, load), *self.piece(size, "%v"), "}"]
        return self.add(name, "\n".join(lines))

    def cast(self, it, kind):
        return [f"  %c{it} = bitcast i8* %p{it} to {kind}*"]

    def reply(self, size):
        """A function that adds n bytes of an object from an offset to the reply: a call at each
        place, where n is known to be inside."""
        cases = " ".join(f"i64 {it}, label %w{it}" for it in range(1, size))
        lines = [f"define internal i64 @fc.reply.{size}(i8* %p, i64 %o, i64 %n) noinline nounwind {{", f"  switch i64 %o, label %w0 [ {cases} ]"]
        for it in range(size):
            lines += [f"w{it}:", f'  %n{it} = call i64 asm "", "=r,0"(i64 %n)', f"  %c{it} = icmp ult i64 %n{it}, {size - it + 1}"]
            lines += [f"  br i1 %c{it}, label %y{it}, label %no", f"y{it}:", f"  %g{it} = getelementptr i8, i8* %p, i64 {it}"]
            lines += [f"  %r{it} = call i64 inttoptr ({REPLY_PUT})(i8* %g{it}, i64 %n{it})", f"  ret i64 %r{it}"]
        return self.add(f"fc.reply.{size}", "\n".join([*lines, "no:", "  ret i64 0", "}"]))


def with_lines(functions, module):
    """Returns the functions, with the debug information that clang's printer needs for those that
    aren't inlined.

    That information names no line."""
    import re

    file, unit, kind = (re.search(rf"^(!\d+) = (?:distinct )?!{it}", module, re.M) for it in ("DIFile", "DICompileUnit", "DISubroutineType"))
    number = max((int(it) for it in re.findall(r"^!(\d+) = ", module, re.M)), default=0)
    for text in functions:
        if file and unit and kind and " noinline " in text:
            number += 1
            text = text.replace(" noinline nounwind {", f" noinline nounwind !dbg !{number} {{")
            name = re.search(r'@"?([^"(]*)', text)[1]
            what = f'name: "{name}", scope: {file[1]}, file: {file[1]}, line: 0, type: {kind[1]}, spFlags: DISPFlagLocalToUnit | DISPFlagDefinition'
            text += f"\n!{number} = distinct !DISubprogram({what}, unit: {unit[1]})"
        yield text

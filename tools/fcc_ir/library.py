"""memcmp, bcmp, memcpy, memset and strlen as functions of the module.

An image has no library, so a call becomes a function, a loop over bytes that is inlined. Blocks of
a constant size are left to clang, which writes them out."""
import re

from fcc_ir.text import is_opaque, parts, typed, without_types

LIBRARY = {  # functions of the C library that clang calls, by their names
    "memcmp": """define internal i32 @fc.memcmp(i8* %p, i8* %q, i64 %n) alwaysinline nounwind {
entry:
  br label %head
head:
  %i = phi i64 [ 0, %entry ], [ %next, %turn ]
  %more = icmp ult i64 %i, %n
  br i1 %more, label %turn, label %same
turn:
  %a = getelementptr i8, i8* %p, i64 %i
  %b = getelementptr i8, i8* %q, i64 %i
  %x = load i8, i8* %a, align 1
  %y = load i8, i8* %b, align 1
  %next = add i64 %i, 1
  %equal = icmp eq i8 %x, %y
  br i1 %equal, label %head, label %other
other:
  %l = zext i8 %x to i32
  %r = zext i8 %y to i32
  %d = sub i32 %l, %r
  ret i32 %d
same:
  ret i32 0
}""",
    "memcpy": """define internal void @fc.memcpy(i8* %p, i8* %q, i64 %n) alwaysinline nounwind {
entry:
  br label %head
head:
  %i = phi i64 [ 0, %entry ], [ %next, %turn ]
  %more = icmp ult i64 %i, %n
  br i1 %more, label %turn, label %end
turn:
  %a = getelementptr i8, i8* %p, i64 %i
  %b = getelementptr i8, i8* %q, i64 %i
  %x = load i8, i8* %b, align 1
  store i8 %x, i8* %a, align 1
  %next = add i64 %i, 1
  br label %head
end:
  ret void
}""",
    "memset": """define internal void @fc.memset(i8* %p, i8 %x, i64 %n) alwaysinline nounwind {
entry:
  br label %head
head:
  %i = phi i64 [ 0, %entry ], [ %next, %turn ]
  %more = icmp ult i64 %i, %n
  br i1 %more, label %turn, label %end
turn:
  %a = getelementptr i8, i8* %p, i64 %i
  store i8 %x, i8* %a, align 1
  %next = add i64 %i, 1
  br label %head
end:
  ret void
}""",
    "strlen": """define internal i64 @fc.strlen(i8* %p) alwaysinline nounwind {
entry:
  br label %head
head:
  %i = phi i64 [ 0, %entry ], [ %next, %head ]
  %a = getelementptr i8, i8* %p, i64 %i
  %x = load i8, i8* %a, align 1
  %next = add i64 %i, 1
  %end = icmp eq i8 %x, 0
  br i1 %end, label %done, label %head
done:
  ret i64 %i
}""",
}


CALL = re.compile(r"= (?:tail )?call [^=@]*@(memcmp|bcmp|strlen)\((.*)\)( #\d+)?(, !dbg !\d+)?$")
BLOCK = re.compile(r"  (?:tail )?call void @llvm\.(memcpy|memset)\.[\w.]*\((.*), i1 (?:immarg )?false\)(?: #\d+)?(, !dbg !\d+)?")


def rewrite(module):
    """Returns the module with its own functions instead of those of the library; None if it calls
    none."""
    used, found = {}, []
    for line in module.splitlines():
        call, block = CALL.search(line), BLOCK.match(line)
        if re.match(r"declare .*@(memcmp|bcmp|strlen)\(", line):
            continue
        if call:
            name = {"bcmp": "memcmp"}.get(call[1], call[1])
            line = f"{line[: call.start()]}= call {'i32' if name == 'memcmp' else 'i64'} @fc.{name}({given(call[2])}){call[4] or ''}"
            used[name] = LIBRARY[name]
        elif block and not typed(parts(block[2])[2])[1].isdecimal():
            line = f"  call void @fc.{block[1]}({given(block[2])}){block[3] or ''}"
            used[block[1]] = LIBRARY[block[1]]
        found.append(line)
    if not used:
        return None
    made = "\n".join(used.values())
    return "\n".join([*found, without_types(made) if is_opaque(module) else made, ""])


def given(words):
    """Returns a call's operands without their attributes."""
    return ", ".join(" ".join(typed(it)) for it in parts(words))

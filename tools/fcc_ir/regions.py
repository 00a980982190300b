"""Names for the parts of a request.

Before clang optimizes, `request->payload` and `request->query` become calls of functions that don't
exist, so that its optimizer can't mix their addresses with others of the request. Afterwards they
are numbers or addresses again.

Only a getelementptr of `struct fc_request` with a constant field is renamed. Other computations on
the request's address are unchanged."""
import re

from fcc_ir.text import VALUE, is_opaque

FIELDS = {"7": ("query", 16, 64), "8": ("payload", 80, 1024)}  # by the field's number: its name, its offset, and its size
FIELD = re.compile(rf"^  ({VALUE}) = getelementptr inbounds (?:nuw )?%struct\.fc_request, (ptr|%struct\.fc_request\*) ({VALUE}), i32 0, i32 ([78])((?:, !.*)?)$", re.M)
MARK = re.compile(rf"  ({VALUE}) = (?:tail )?call [^@]*@fc\.(query|payload)\((ptr|%struct\.fc_request\*)(?: [\w()]+)* ({VALUE})\)([^,]*)(.*)$")


def mark(module):
    """Returns the module with names for the query and the payload; the module itself if it uses
    neither."""
    is_plain, used = is_opaque(module), set()

    def call(found):
        value, kind, request, field, notes = found.groups()
        name, _, size = FIELDS[field]
        used.add(field)
        return f"  {value} = call {'ptr' if is_plain else f'[{size} x i8]*'} @fc.{name}({kind} {request}){notes}"

    made = FIELD.sub(call, module)
    for field in sorted(used):
        name, _, size = FIELDS[field]
        result, given = ("ptr", "ptr") if is_plain else (f"[{size} x i8]*", "%struct.fc_request*")
        made += f"\ndeclare nonnull align 8 dereferenceable({size}) {result} @fc.{name}({given}) nounwind readnone willreturn speculatable\n"
    return made


def unmark_line(line):
    """Returns a line with addresses instead of names."""
    found = MARK.match(line)
    if not found:
        return line
    value, name, kind, request, _, notes = found.groups()
    field, at = next((number, start) for number, (it, start, _) in FIELDS.items() if it == name)
    if kind == "ptr":
        return f"  {value} = getelementptr inbounds i8, ptr {request}, i64 {at}{notes}"
    return f"  {value} = getelementptr inbounds %struct.fc_request, {kind} {request}, i32 0, i32 {field}{notes}"


def unmark(module):
    """Returns the module with addresses instead of names."""
    return "\n".join(unmark_line(it) for it in module.split("\n") if not re.match(r"declare .*@fc\.(query|payload)\(", it))

"""Counters for loops.

At each head with a bound, a counter is compared with it. A run that reaches the head once more is
answered 5.00: it returns 160, and changes nothing."""
import re

from fcc_ir.text import LABEL, NOTE

OVER = "fc.over"


def guarded(function, bounds):
    """Returns the lines of a function in which each of these loops' heads is reached a limited
    number of times.

    They are counted from the entry of the loop."""
    lines, names, blocks = function.lines, {}, {}
    for name, places in function.lines_of.items():
        blocks[name] = [lines[at] for at in places]
        label = LABEL.match(blocks[name][0])
        names[name] = label[1] if label else "entry"
    loops, renamed = function.loops(), {}
    before = {head: [it for it in function.after if head in function.after[it]] for head in loops}
    for head, most in bounds.items():
        if head not in loops or head == function.first:
            continue
        backs, rest, own = loops[head][0], f'"fc.r.{head}"', next((it[0] for it in map(NOTE.search, blocks[head]) if it), function.note)
        new = f'%"fc.n.{head}'
        phis = next(at for at, line in enumerate(blocks[head]) if at and " = phi " not in line)
        ways = [f'[ {new + ".next" + chr(34) if it in backs else 0}, %{renamed.get(it, names[it])} ]' for it in before[head] for _ in range(function.after[it].count(head))]
        made = [f'  {new}.now" = call i64 asm "", "=r,0"(i64 {new}"){own}', f'  {new}.next" = add i64 {new}.now", 1{own}', f'  {new}.more" = icmp ult i64 {new}.now", {most}{own}']
        made += [f'  br i1 {new}.more", label %{rest}, label %"{OVER}"{own}', f"{rest}:"]
        blocks[head][phis:phis] = [f'  {new}" = phi i64 {", ".join(ways)}', *made]
        renamed[head] = rest
        for name in blocks:
            blocks[name] = [re.sub(rf", %{re.escape(names[head])} \]", lambda _: f", %{rest} ]", line) if " = phi " in line else line for line in blocks[name]]
    more = [f'"{OVER}":', f"  ret i64 160{function.note}"] if renamed else []
    return [lines[0], *(it for block in blocks.values() for it in block), *more, "}"]

; turns 20
define i64 @run(i64 %n) !dbg !5 {
entry:
  br label %outer
outer:
  %i = phi i64 [ 0, %entry ], [ %i.next, %latch ]
  br label %inner
inner:
  %j = phi i64 [ 0, %outer ], [ %j.next, %inner ]
  %j.next = add i64 %j, 1
  %again = icmp ult i64 %j.next, %n
  br i1 %again, label %inner, label %latch
latch:
  %sum = phi i64 [ %j, %inner ]
  %i.next = add i64 %i, %sum
  %more = icmp ult i64 %i.next, %n
  br i1 %more, label %outer, label %end, !dbg !6
end:
  ret i64 0
}
; ----
define i64 @run(i64 %n) !dbg !5 {
entry:
  br label %outer
outer:
  %i = phi i64 [ 0, %entry ], [ %i.next, %latch ]
  %"fc.n.outer" = phi i64 [ 0, %entry ], [ %"fc.n.outer.next", %latch ]
  %"fc.n.outer.now" = call i64 asm "", "=r,0"(i64 %"fc.n.outer"), !dbg !6
  %"fc.n.outer.next" = add i64 %"fc.n.outer.now", 1, !dbg !6
  %"fc.n.outer.more" = icmp ult i64 %"fc.n.outer.now", 20, !dbg !6
  br i1 %"fc.n.outer.more", label %"fc.r.outer", label %"fc.over", !dbg !6
"fc.r.outer":
  br label %inner
inner:
  %j = phi i64 [ 0, %"fc.r.outer" ], [ %j.next, %"fc.r.inner" ]
  %"fc.n.inner" = phi i64 [ 0, %"fc.r.outer" ], [ %"fc.n.inner.next", %"fc.r.inner" ]
  %"fc.n.inner.now" = call i64 asm "", "=r,0"(i64 %"fc.n.inner"), !dbg !6
  %"fc.n.inner.next" = add i64 %"fc.n.inner.now", 1, !dbg !6
  %"fc.n.inner.more" = icmp ult i64 %"fc.n.inner.now", 20, !dbg !6
  br i1 %"fc.n.inner.more", label %"fc.r.inner", label %"fc.over", !dbg !6
"fc.r.inner":
  %j.next = add i64 %j, 1
  %again = icmp ult i64 %j.next, %n
  br i1 %again, label %inner, label %latch
latch:
  %sum = phi i64 [ %j, %"fc.r.inner" ]
  %i.next = add i64 %i, %sum
  %more = icmp ult i64 %i.next, %n
  br i1 %more, label %outer, label %end, !dbg !6
end:
  ret i64 0
"fc.over":
  ret i64 160, !dbg !6
}

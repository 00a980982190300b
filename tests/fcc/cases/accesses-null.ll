; accesses computed 64
define i64 @run(ptr %request, ptr %s, i64 %length) {
entry:
  %c = icmp ugt i64 %length, 3
  %best = select i1 %c, ptr %s, ptr null
  %none = icmp eq ptr %best, null
  br i1 %none, label %end, label %some
some:
  %x = load i64, ptr %best, align 8
  br label %end
end:
  ret i64 0
}
; ----
define i64 @run(ptr %request, ptr %s, i64 %length) {
entry:
  %c = icmp ugt i64 %length, 3
  %best = select i1 %c, ptr %s, ptr null
  %"fc.o.best" = select i1 %c, i64 0, i64 -4611686018427387904
  %none = icmp eq i64 %"fc.o.best", -4611686018427387904
  br i1 %none, label %end, label %some
some:
  %"fc.b.7.o0" = add i64 %"fc.o.best", 0
  %"fc.b.7.v0" = call i64 @fc.vars.get.8(i64 %"fc.b.7.o0")
  %"fc.b.7.s0" = shl i64 %"fc.b.7.v0", 0
  %"fc.b.7.t0" = or i64 0, %"fc.b.7.s0"
  %x = add i64 %"fc.b.7.t0", 0
  br label %end
end:
  ret i64 0
}
; needs fc.vars.get.8
; needs fc.vars.put.8

; accesses all 64
define i64 @run(ptr %request, ptr %s, i64 %length, ptr %readings) {
entry:
  %c = icmp ugt i64 %length, 3
  %p = select i1 %c, ptr %s, ptr %readings
  %x = load i64, ptr %p, align 8
  %q = load ptr, ptr %s, align 8
  %y = load i8, ptr %q, align 1
  %v = load volatile i8, ptr %s, align 1
  %z = load <2 x i32>, ptr %s, align 8
  ret i64 %x
}
; ----
; left alone

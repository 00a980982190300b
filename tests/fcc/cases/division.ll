; division
define i64 @run(i64 %a, i32 %b, i16 %c, i64 %d) {
entry:
  %q = sdiv i64 %a, %d, !dbg !7
  %r = srem i32 %b, 10, !dbg !8
  %e = sdiv exact i16 %c, -3
  %u = udiv i64 %a, %d
  ret i64 %q
}
; ----
define i64 @run(i64 %a, i32 %b, i16 %c, i64 %d) {
entry:
  %q = call i64 asm ".byte 0x3f, 0x54, 1, 0, 0, 0, 0, 0", "={r4},0,{r5}"(i64 %a, i64 %d), !dbg !7
  %"fc.r.l" = sext i32 %b to i64
  %"fc.r.r" = sext i32 10 to i64
  %"fc.r.q" = call i64 asm ".byte 0x9f, 0x54, 1, 0, 0, 0, 0, 0", "={r4},0,{r5}"(i64 %"fc.r.l", i64 %"fc.r.r"), !dbg !8
  %r = trunc i64 %"fc.r.q" to i32
  %"fc.e.l" = sext i16 %c to i64
  %"fc.e.r" = sext i16 -3 to i64
  %"fc.e.q" = call i64 asm ".byte 0x3f, 0x54, 1, 0, 0, 0, 0, 0", "={r4},0,{r5}"(i64 %"fc.e.l", i64 %"fc.e.r")
  %e = trunc i64 %"fc.e.q" to i16
  %u = udiv i64 %a, %d
  ret i64 %q
}

; library
define i64 @run(ptr %p, ptr %q, i64 %n) {
entry:
  tail call void @llvm.memmove.p0.p0.i64(ptr align 1 %p, ptr align 1 %q, i64 %n, i1 false), !dbg !10
  ret i64 0
}
; ----
; left alone

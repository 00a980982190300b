; accesses all 0
define i64 @run(ptr %request, ptr %s, i64 %i) {
entry:
  %p = getelementptr inbounds i64, ptr %s, i64 %i
  store i64 7, ptr %p, align 8
  ret i64 0
}
; ----
; left alone

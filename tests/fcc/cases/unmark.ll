; unmark
define i64 @run(ptr %request) {
entry:
  %payload = tail call nonnull align 8 dereferenceable(1024) ptr @fc.payload(ptr nonnull %request) #5, !dbg !7
  %query = call ptr @fc.query(ptr %request)
  ret i64 0
}
declare nonnull align 8 dereferenceable(1024) ptr @fc.payload(ptr) #2
declare nonnull align 8 dereferenceable(64) ptr @fc.query(ptr) #2
; ----
define i64 @run(ptr %request) {
entry:
  %payload = getelementptr inbounds i8, ptr %request, i64 80, !dbg !7
  %query = getelementptr inbounds i8, ptr %request, i64 16
  ret i64 0
}

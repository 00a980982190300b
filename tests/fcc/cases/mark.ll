; mark
%struct.fc_request = type { i8, i8, i16, i16, i8, i8, [8 x i8], [64 x i8], [1024 x i8] }
define i64 @run(ptr %request) {
entry:
  %payload = getelementptr inbounds nuw %struct.fc_request, ptr %request, i32 0, i32 8, !dbg !7
  %query = getelementptr inbounds %struct.fc_request, ptr %request, i32 0, i32 7
  %method = getelementptr inbounds %struct.fc_request, ptr %request, i32 0, i32 0
  %raw = getelementptr inbounds i8, ptr %request, i64 80
  %later = getelementptr inbounds %struct.fc_request, ptr %request, i32 1, i32 8
  ret i64 0
}
; ----
%struct.fc_request = type { i8, i8, i16, i16, i8, i8, [8 x i8], [64 x i8], [1024 x i8] }
define i64 @run(ptr %request) {
entry:
  %payload = call ptr @fc.payload(ptr %request), !dbg !7
  %query = call ptr @fc.query(ptr %request)
  %method = getelementptr inbounds %struct.fc_request, ptr %request, i32 0, i32 0
  %raw = getelementptr inbounds i8, ptr %request, i64 80
  %later = getelementptr inbounds %struct.fc_request, ptr %request, i32 1, i32 8
  ret i64 0
}

declare nonnull align 8 dereferenceable(64) ptr @fc.query(ptr) nounwind readnone willreturn speculatable

declare nonnull align 8 dereferenceable(1024) ptr @fc.payload(ptr) nounwind readnone willreturn speculatable

; mark
%struct.fc_request = type { i8, i8, i16, i16, i8, i8, [8 x i8], [64 x i8], [1024 x i8] }
define i64 @run(%struct.fc_request* %request) {
entry:
  %payload = getelementptr inbounds %struct.fc_request, %struct.fc_request* %request, i32 0, i32 8, !dbg !7
  ret i64 0
}
; ----
%struct.fc_request = type { i8, i8, i16, i16, i8, i8, [8 x i8], [64 x i8], [1024 x i8] }
define i64 @run(%struct.fc_request* %request) {
entry:
  %payload = call [1024 x i8]* @fc.payload(%struct.fc_request* %request), !dbg !7
  ret i64 0
}

declare nonnull align 8 dereferenceable(1024) [1024 x i8]* @fc.payload(%struct.fc_request*) nounwind readnone willreturn speculatable

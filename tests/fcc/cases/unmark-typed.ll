; unmark
define i64 @run(%struct.fc_request* %request) {
entry:
  %0 = tail call [1024 x i8]* @fc.payload(%struct.fc_request* nonnull %request) #5, !dbg !7
  ret i64 0
}
; ----
define i64 @run(%struct.fc_request* %request) {
entry:
  %0 = getelementptr inbounds %struct.fc_request, %struct.fc_request* %request, i32 0, i32 8, !dbg !7
  ret i64 0
}

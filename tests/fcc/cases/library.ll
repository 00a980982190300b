; library
@.str = private unnamed_addr constant [4 x i8] c"abc\00"
declare i32 @memcmp(ptr nocapture, ptr nocapture, i64)
define i64 @run(ptr %p, ptr %q, i64 %n) {
entry:
  %x = tail call i32 @memcmp(ptr noundef nonnull dereferenceable(3) %p, ptr noundef nonnull @.str, i64 noundef %n) #4, !dbg !9
  tail call void @llvm.memcpy.p0.p0.i64(ptr align 1 %p, ptr align 1 %q, i64 %n, i1 false), !dbg !10
  tail call void @llvm.memcpy.p0.p0.i64(ptr align 1 %p, ptr align 1 %q, i64 16, i1 false), !dbg !11
  ret i64 0
}
; ----
@.str = private unnamed_addr constant [4 x i8] c"abc\00"
define i64 @run(ptr %p, ptr %q, i64 %n) {
entry:
  %x = call i32 @fc.memcmp(ptr %p, ptr @.str, i64 %n), !dbg !9
  call void @fc.memcpy(ptr %p, ptr %q, i64 %n), !dbg !10
  tail call void @llvm.memcpy.p0.p0.i64(ptr align 1 %p, ptr align 1 %q, i64 16, i1 false), !dbg !11
  ret i64 0
}
define internal i32 @fc.memcmp(ptr %p, ptr %q, i64 %n) alwaysinline nounwind {
entry:
  br label %head
head:
  %i = phi i64 [ 0, %entry ], [ %next, %turn ]
  %more = icmp ult i64 %i, %n
  br i1 %more, label %turn, label %same
turn:
  %a = getelementptr i8, ptr %p, i64 %i
  %b = getelementptr i8, ptr %q, i64 %i
  %x = load i8, ptr %a, align 1
  %y = load i8, ptr %b, align 1
  %next = add i64 %i, 1
  %equal = icmp eq i8 %x, %y
  br i1 %equal, label %head, label %other
other:
  %l = zext i8 %x to i32
  %r = zext i8 %y to i32
  %d = sub i32 %l, %r
  ret i32 %d
same:
  ret i32 0
}
define internal void @fc.memcpy(ptr %p, ptr %q, i64 %n) alwaysinline nounwind {
entry:
  br label %head
head:
  %i = phi i64 [ 0, %entry ], [ %next, %turn ]
  %more = icmp ult i64 %i, %n
  br i1 %more, label %turn, label %end
turn:
  %a = getelementptr i8, ptr %p, i64 %i
  %b = getelementptr i8, ptr %q, i64 %i
  %x = load i8, ptr %b, align 1
  store i8 %x, ptr %a, align 1
  %next = add i64 %i, 1
  br label %head
end:
  ret void
}

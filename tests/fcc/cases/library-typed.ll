; library
declare i64 @strlen(i8* nocapture)
define i64 @run(i8* %p, i64 %n) {
entry:
  %x = tail call i64 @strlen(i8* noundef nonnull dereferenceable(1) %p) #3
  call void @llvm.memset.p0i8.i64(i8* nonnull align 1 %p, i8 32, i64 %n, i1 false), !dbg !10
  ret i64 %x
}
; ----
define i64 @run(i8* %p, i64 %n) {
entry:
  %x = call i64 @fc.strlen(i8* %p)
  call void @fc.memset(i8* %p, i8 32, i64 %n), !dbg !10
  ret i64 %x
}
define internal i64 @fc.strlen(i8* %p) alwaysinline nounwind {
entry:
  br label %head
head:
  %i = phi i64 [ 0, %entry ], [ %next, %head ]
  %a = getelementptr i8, i8* %p, i64 %i
  %x = load i8, i8* %a, align 1
  %next = add i64 %i, 1
  %end = icmp eq i8 %x, 0
  br i1 %end, label %done, label %head
done:
  ret i64 %i
}
define internal void @fc.memset(i8* %p, i8 %x, i64 %n) alwaysinline nounwind {
entry:
  br label %head
head:
  %i = phi i64 [ 0, %entry ], [ %next, %turn ]
  %more = icmp ult i64 %i, %n
  br i1 %more, label %turn, label %end
turn:
  %a = getelementptr i8, i8* %p, i64 %i
  store i8 %x, i8* %a, align 1
  %next = add i64 %i, 1
  br label %head
end:
  ret void
}

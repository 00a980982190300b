; bounds
@.str = private unnamed_addr constant [6 x i8] c"hello\00", align 1
define i64 @run(ptr %request, ptr %s, i64 %n) {
entry:
  %payload = tail call ptr @fc.payload(ptr %request)
  br label %text
text:
  %p = phi ptr [ @.str, %entry ], [ %p.next, %text ]
  %x = load i8, ptr %p, align 1
  %p.next = getelementptr inbounds i8, ptr %p, i64 1
  %done = icmp eq i8 %x, 0
  br i1 %done, label %fields, label %text
fields:
  %i = phi i64 [ 0, %text ], [ %i.next, %more ]
  %q = getelementptr inbounds i8, ptr %payload, i64 %i
  %l = load i8, ptr %q, align 1
  %w = zext i8 %l to i64
  %last = icmp ugt i64 %i, %n
  br i1 %last, label %down, label %more
more:
  %j = add i64 %i, 2
  %i.next = add i64 %j, %w
  br label %fields
down:
  %k = phi i32 [ 15, %fields ], [ %k.next, %down ]
  %k.wide = zext i32 %k to i64
  %r = getelementptr inbounds [16 x i32], ptr %s, i64 0, i64 %k.wide
  %y = load i32, ptr %r, align 4
  %k.next = add i32 %k, -1
  %stop = icmp eq i32 %y, 0
  br i1 %stop, label %end, label %down
end:
  ret i64 0
}
; ----
; text: 6
; fields: 512
; down: 16

; bounds
define i64 @run(ptr %request, ptr %s, i64 %n) {
entry:
  %payload = tail call ptr @fc.payload(ptr %request)
  br label %wraps
wraps:
  %i = phi i8 [ 0, %entry ], [ %i.next, %wraps ]
  %w = zext i8 %i to i64
  %p = getelementptr inbounds i8, ptr %payload, i64 %w
  %x = load i8, ptr %p, align 1
  %i.next = add i8 %i, 1
  %a = icmp eq i8 %x, 0
  br i1 %a, label %stays, label %wraps
stays:
  %j = phi i64 [ 0, %wraps ], [ %j.next, %stays ]
  %q = getelementptr inbounds i8, ptr %payload, i64 %j
  %y = load i8, ptr %q, align 1
  %step = zext i8 %y to i64
  %j.next = add i64 %j, %step
  %b = icmp eq i8 %y, 9
  br i1 %b, label %sometimes, label %stays
sometimes:
  %k = phi i64 [ 0, %stays ], [ %k.next, %latch ]
  %c = icmp ugt i64 %k, %n
  br i1 %c, label %latch, label %asks
asks:
  %r = getelementptr inbounds i8, ptr %payload, i64 %k
  %z = load i8, ptr %r, align 1
  br label %latch
latch:
  %k.next = add i64 %k, 1
  %d = icmp eq i64 %k.next, 5000
  br i1 %d, label %end, label %sometimes
end:
  ret i64 0
}
; ----
; wraps: not bounded
; stays: not bounded
; sometimes: not bounded

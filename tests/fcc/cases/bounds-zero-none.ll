; bounds
define i64 @run(ptr %request, ptr %s, i64 %n) {
entry:
  %x = trunc i64 %n to i32
  br label %odd
odd:
  %i = phi i32 [ 1, %entry ], [ %i.next, %odd ]
  %i.next = mul i32 %i, 3
  %a = icmp ugt i32 %i.next, %x
  br i1 %a, label %asks, label %odd
asks:
  %j = phi i32 [ %i, %odd ], [ %j.next, %asks ]
  %j.next = udiv i32 %j, 10
  %y = call i64 inttoptr (i64 3 to ptr)(i64 0)
  %b = icmp eq i64 %y, 7
  br i1 %b, label %two, label %asks
two:
  %k = phi i32 [ 100, %asks ], [ %k.next, %two ]
  %l = phi i32 [ 0, %asks ], [ %l.next, %two ]
  %k.next = lshr i32 %k, 1
  %l.next = add i32 %l, 1
  %m = add i32 %k, %l
  %c = icmp eq i32 %m, 1000
  br i1 %c, label %sometimes, label %two
sometimes:
  %o = phi i32 [ %x, %two ], [ %o.next, %latch ]
  %p = phi i32 [ 0, %two ], [ %p.next, %latch ]
  %p.next = add i32 %p, 1
  %o.next = lshr i32 %o, 1
  %d = icmp ult i32 %p, 1500
  br i1 %d, label %latch, label %tested
tested:
  %e = icmp eq i32 %o, 0
  br i1 %e, label %end, label %latch
latch:
  br label %sometimes
end:
  ret i64 0
}
; ----
; odd: not bounded
; asks: not bounded
; two: not bounded
; sometimes: not bounded

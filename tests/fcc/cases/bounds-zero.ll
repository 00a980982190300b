; bounds
define i64 @run(ptr %request, ptr %s, i64 %n) {
entry:
  %x = trunc i64 %n to i32
  br label %grows
grows:
  %i = phi i32 [ 1, %entry ], [ %i.next, %grows ]
  %i.next = mul i32 %i, 10
  %a = icmp ugt i32 %i.next, %x
  br i1 %a, label %shrinks, label %grows
shrinks:
  %j = phi i32 [ %i, %grows ], [ %j.next, %more ]
  %b = icmp eq i32 %j, 0
  br i1 %b, label %doubles, label %more
more:
  %c = call i64 inttoptr (i64 6 to ptr)(i64 48)
  %j.next = udiv i32 %j, 10
  br label %shrinks
doubles:
  %k = phi i64 [ 3, %shrinks ], [ %k.next, %doubles ]
  %k.next = shl nuw i64 %k, 2
  %m = and i64 %k.next, %n
  %d = icmp eq i64 %m, 0
  br i1 %d, label %doubles, label %end
end:
  ret i64 0
}
; ----
; grows: 33
; shrinks: 11
; doubles: 33

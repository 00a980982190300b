; recursion
define internal void @digits(i8 %n) #0 {
entry:
  %cmp = icmp ugt i8 %n, 9
  br i1 %cmp, label %if.then, label %if.end
if.then:
  %div = udiv i8 %n, 10
  tail call void @digits(i8 %div)
  br label %if.end
if.end:
  %rem = urem i8 %n, 10
  %wide = zext i8 %rem to i64
  %c = tail call i64 inttoptr (i64 6 to ptr)(i64 %wide)
  ret void
}
define internal fastcc i32 @ones(i32 %done, i16 %n) unnamed_addr #0 {
entry:
  %cmp = icmp slt i16 %n, 16384
  br i1 %cmp, label %end, label %more
more:
  %half = sdiv i16 %n, 2
  %next = add i32 %done, 1
  %sum = tail call fastcc i32 @ones(i32 %next, i16 %half)
  ret i32 %sum
end:
  ret i32 %done
}
define i64 @run(ptr %request) {
entry:
  tail call void @digits(i8 200)
  %x = tail call fastcc i32 @ones(i32 0, i16 9)
  ret i64 0
}
attributes #0 = { nounwind }
; ----
define internal void @digits(i8 %n) #0 {
entry:
  %cmp = icmp ugt i8 %n, 9
  br i1 %cmp, label %if.then, label %if.end
if.then:
  %div = udiv i8 %n, 10
  tail call void @"fc.level.1.digits"(i8 %div)
  br label %if.end
if.end:
  %rem = urem i8 %n, 10
  %wide = zext i8 %rem to i64
  %c = tail call i64 inttoptr (i64 6 to ptr)(i64 %wide)
  ret void
}
define internal void @"fc.level.1.digits"(i8 %n) alwaysinline #0 {
entry:
  %cmp = icmp ugt i8 %n, 9
  br i1 %cmp, label %if.then, label %if.end
if.then:
  %div = udiv i8 %n, 10
  tail call void @"fc.level.2.digits"(i8 %div)
  br label %if.end
if.end:
  %rem = urem i8 %n, 10
  %wide = zext i8 %rem to i64
  %c = tail call i64 inttoptr (i64 6 to ptr)(i64 %wide)
  ret void
}
define internal void @"fc.level.2.digits"(i8 %n) alwaysinline #0 {
entry:
  %cmp = icmp ugt i8 %n, 9
  br i1 %cmp, label %if.then, label %if.end
if.then:
  %div = udiv i8 %n, 10
  br label %if.end
if.end:
  %rem = urem i8 %n, 10
  %wide = zext i8 %rem to i64
  %c = tail call i64 inttoptr (i64 6 to ptr)(i64 %wide)
  ret void
}
define internal fastcc i32 @ones(i32 %done, i16 %n) unnamed_addr #0 {
entry:
  %cmp = icmp slt i16 %n, 16384
  br i1 %cmp, label %end, label %more
more:
  %half = sdiv i16 %n, 2
  %next = add i32 %done, 1
  %sum = tail call fastcc i32 @"fc.level.1.ones"(i32 %next, i16 %half)
  ret i32 %sum
end:
  ret i32 %done
}
define internal fastcc i32 @"fc.level.1.ones"(i32 %done, i16 %n) unnamed_addr alwaysinline #0 {
entry:
  %cmp = icmp slt i16 %n, 16384
  br i1 %cmp, label %end, label %more
more:
  %half = sdiv i16 %n, 2
  %next = add i32 %done, 1
  %sum = add i32 0, 0
  ret i32 %sum
end:
  ret i32 %done
}
define i64 @run(ptr %request) {
entry:
  tail call void @digits(i8 200)
  %x = tail call fastcc i32 @ones(i32 0, i16 9)
  ret i64 0
}
attributes #0 = { nounwind }

; recursion
define internal void @unguarded(i32 %n) #0 {
entry:
  %div = udiv i32 %n, 10
  tail call void @unguarded(i32 %div)
  ret void
}
define internal void @down(i32 %n) #0 {
entry:
  %cmp = icmp eq i32 %n, 0
  br i1 %cmp, label %end, label %more
more:
  %next = add i32 %n, -1
  tail call void @down(i32 %next)
  br label %end
end:
  ret void
}
define internal void @twice(i32 %n) #0 {
entry:
  %cmp = icmp ugt i32 %n, 1
  br i1 %cmp, label %more, label %end
more:
  %half = lshr i32 %n, 1
  tail call void @twice(i32 %half)
  tail call void @twice(i32 %half)
  br label %end
end:
  ret void
}
define internal void @by_sign(i32 %n) #0 {
entry:
  %cmp = icmp ugt i32 %n, 9
  br i1 %cmp, label %more, label %end
more:
  %div = sdiv i32 %n, 10
  tail call void @by_sign(i32 %div)
  br label %end
end:
  ret void
}
define internal void @not_zero(i32 %n) #0 {
entry:
  %cmp = icmp sgt i32 %n, -10
  br i1 %cmp, label %more, label %end
more:
  %div = sdiv i32 %n, 10
  tail call void @not_zero(i32 %div)
  br label %end
end:
  ret void
}
define internal void @other_way(i32 %n) #0 {
entry:
  %cmp = icmp ugt i32 %n, 9
  br i1 %cmp, label %end, label %more
more:
  %div = udiv i32 %n, 10
  tail call void @other_way(i32 %div)
  br label %end
end:
  ret void
}
define internal void @kept(i32 %n) #1 {
entry:
  %cmp = icmp ugt i32 %n, 9
  br i1 %cmp, label %more, label %end
more:
  %div = udiv i32 %n, 10
  tail call void @kept(i32 %div)
  br label %end
end:
  ret void
}
define internal void @other(i32 %n, i32 %m) #0 {
entry:
  %cmp = icmp ugt i32 %m, 9
  br i1 %cmp, label %more, label %end
more:
  %div = udiv i32 %n, 10
  tail call void @other(i32 %div, i32 %m)
  br label %end
end:
  ret void
}
attributes #0 = { nounwind }
attributes #1 = { noinline nounwind }
; ----
; left alone

; inlining keeps
define internal i32 @of_numbers(i32 noundef %x) #1 {
entry:
  ret i32 %x
}
define internal i32 @of_pointers(ptr noundef %x) #1 {
entry:
  ret i32 0
}
define internal i32 @fixed(i32 noundef %x) #2 {
entry:
  ret i32 %x
}
define i64 @run(ptr %request) #0 {
entry:
  %a = call i32 @of_numbers(i32 1)
  %b = call i32 @of_numbers(i32 2)
  ret i64 0
}
attributes #0 = { nounwind }
attributes #1 = { nounwind }
attributes #2 = { noinline nounwind }
; ----
define internal i32 @of_numbers(i32 noundef %x) noinline #1 {
entry:
  ret i32 %x
}
define internal i32 @of_pointers(ptr noundef %x) alwaysinline #1 {
entry:
  ret i32 0
}
define internal i32 @fixed(i32 noundef %x) #2 {
entry:
  ret i32 %x
}
define i64 @run(ptr %request) #0 {
entry:
  %a = call i32 @of_numbers(i32 1)
  %b = call i32 @of_numbers(i32 2)
  ret i64 0
}
attributes #0 = { nounwind }
attributes #1 = { nounwind }
attributes #2 = { noinline nounwind }

; division
define <2 x i32> @run(<2 x i32> %a, i128 %b) {
entry:
  %q = sdiv <2 x i32> %a, <i32 3, i32 3>
  %r = srem i128 %b, 7
  ret <2 x i32> %q
}
; ----
; left alone

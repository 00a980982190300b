; accesses all 64
define i64 @run(ptr %request, ptr %s, i64 %i) {
entry:
  %payload = tail call ptr @fc.payload(ptr %request)
  %p = getelementptr inbounds i8, ptr %payload, i64 %i
  %x = load i32, ptr %p, align 1
  store i32 %x, ptr %s, align 8
  %at = getelementptr inbounds i8, ptr %s, i64 62
  store i32 %x, ptr %at, align 2
  ret i64 0
}
; ----
define i64 @run(ptr %request, ptr %s, i64 %i) {
entry:
  %payload = tail call ptr @fc.payload(ptr %request)
  %p = getelementptr inbounds i8, ptr %payload, i64 %i
  %"fc.o.p.m0" = mul i64 %i, 1
  %"fc.o.p.a0" = add i64 0, %"fc.o.p.m0"
  %"fc.o.p" = add i64 %"fc.o.p.a0", 0
  %"fc.b.4.o0" = add i64 %"fc.o.p", 0
  %"fc.b.4.o1" = add i64 %"fc.o.p", 1
  %"fc.b.4.o2" = add i64 %"fc.o.p", 2
  %"fc.b.4.o3" = add i64 %"fc.o.p", 3
  %"fc.b.4.v0" = call i64 @fc.payload.get.1(i64 %"fc.b.4.o0")
  %"fc.b.4.s0" = shl i64 %"fc.b.4.v0", 0
  %"fc.b.4.t0" = or i64 0, %"fc.b.4.s0"
  %"fc.b.4.v1" = call i64 @fc.payload.get.1(i64 %"fc.b.4.o1")
  %"fc.b.4.s1" = shl i64 %"fc.b.4.v1", 8
  %"fc.b.4.t1" = or i64 %"fc.b.4.t0", %"fc.b.4.s1"
  %"fc.b.4.v2" = call i64 @fc.payload.get.1(i64 %"fc.b.4.o2")
  %"fc.b.4.s2" = shl i64 %"fc.b.4.v2", 16
  %"fc.b.4.t2" = or i64 %"fc.b.4.t1", %"fc.b.4.s2"
  %"fc.b.4.v3" = call i64 @fc.payload.get.1(i64 %"fc.b.4.o3")
  %"fc.b.4.s3" = shl i64 %"fc.b.4.v3", 24
  %"fc.b.4.t3" = or i64 %"fc.b.4.t2", %"fc.b.4.s3"
  %x = trunc i64 %"fc.b.4.t3" to i32
  %"fc.b.5.o0" = add i64 0, 0
  %"fc.b.5.x" = zext i32 %x to i64
  %"fc.b.5.y0" = lshr i64 %"fc.b.5.x", 0
  call void @fc.vars.put.4(i64 %"fc.b.5.o0", i64 %"fc.b.5.y0")
  %at = getelementptr inbounds i8, ptr %s, i64 62
  store i32 %x, ptr %at, align 2
  ret i64 0
}
; needs fc.payload.get.1
; needs fc.vars.get.4
; needs fc.vars.put.4

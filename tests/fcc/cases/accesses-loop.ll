; accesses loops 64
define i64 @run(ptr nocapture readonly %request, ptr %s, i64 %length) {
entry:
  %payload = tail call ptr @fc.payload(ptr %request)
  %first = load i8, ptr %payload, align 8
  br label %head
head:
  %i = phi i64 [ 0, %entry ], [ %next, %head ]
  %p = getelementptr inbounds i8, ptr %payload, i64 %i
  %x = load i8, ptr %p, align 1, !dbg !7
  %q = getelementptr inbounds [16 x i32], ptr %s, i64 0, i64 %i
  %w = zext i8 %x to i32
  store i32 %w, ptr %q, align 4, !dbg !8
  %next = add i64 %i, 1
  %more = icmp ult i64 %next, 16
  br i1 %more, label %head, label %end
end:
  ret i64 0
}
; ----
define i64 @run(ptr %request, ptr %s, i64 %length) {
entry:
  %payload = tail call ptr @fc.payload(ptr %request)
  %first = load i8, ptr %payload, align 8
  br label %head
head:
  %i = phi i64 [ 0, %entry ], [ %next, %head ]
  %p = getelementptr inbounds i8, ptr %payload, i64 %i
  %"fc.o.p.m0" = mul i64 %i, 1
  %"fc.o.p.a0" = add i64 0, %"fc.o.p.m0"
  %"fc.o.p" = add i64 %"fc.o.p.a0", 0
  %"fc.b.8.o0" = add i64 %"fc.o.p", 0
  %"fc.b.8.v0" = call i64 @fc.payload.get.1(i64 %"fc.b.8.o0"), !dbg !7
  %"fc.b.8.s0" = shl i64 %"fc.b.8.v0", 0
  %"fc.b.8.t0" = or i64 0, %"fc.b.8.s0"
  %x = trunc i64 %"fc.b.8.t0" to i8
  %q = getelementptr inbounds [16 x i32], ptr %s, i64 0, i64 %i
  %"fc.o.q.m0" = mul i64 %i, 4
  %"fc.o.q.a0" = add i64 0, %"fc.o.q.m0"
  %"fc.o.q" = add i64 %"fc.o.q.a0", 0
  %w = zext i8 %x to i32
  %"fc.b.11.o0" = add i64 %"fc.o.q", 0
  %"fc.b.11.x" = zext i32 %w to i64
  %"fc.b.11.y0" = lshr i64 %"fc.b.11.x", 0
  call void @fc.vars.put.4(i64 %"fc.b.11.o0", i64 %"fc.b.11.y0"), !dbg !8
  %next = add i64 %i, 1
  %more = icmp ult i64 %next, 16
  br i1 %more, label %head, label %end
end:
  ret i64 0
}
; needs fc.payload.get.1
; needs fc.vars.get.4
; needs fc.vars.put.4

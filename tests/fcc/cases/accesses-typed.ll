; accesses computed 64
%struct.fc_request = type { i8, i8, i16, i16, i8, i8, [8 x i8], [64 x i8], [1024 x i8] }
%struct.state = type { i32, [8 x i16] }
@table = internal unnamed_addr constant [5 x i16] [i16 1, i16 2, i16 3, i16 4, i16 5], align 2
define i64 @run(%struct.fc_request* nocapture readonly %request, %struct.state* %s, i64 %i) {
entry:
  %0 = tail call [64 x i8]* @fc.query(%struct.fc_request* %request)
  %p = getelementptr inbounds [64 x i8], [64 x i8]* %0, i64 0, i64 %i
  %x = load i8, i8* %p, align 1
  %j = zext i8 %x to i64
  %q = getelementptr inbounds [5 x i16], [5 x i16]* @table, i64 0, i64 %j
  %y = load i16, i16* %q, align 2
  %r = getelementptr inbounds %struct.state, %struct.state* %s, i64 0, i32 1, i64 %j
  store i16 %y, i16* %r, align 2
  ret i64 0
}
; ----
%struct.fc_request = type { i8, i8, i16, i16, i8, i8, [8 x i8], [64 x i8], [1024 x i8] }
%struct.state = type { i32, [8 x i16] }
@table = internal unnamed_addr constant [5 x i16] [i16 1, i16 2, i16 3, i16 4, i16 5], align 2
define i64 @run(%struct.fc_request* %request, %struct.state* %s, i64 %i) {
entry:
  %0 = tail call [64 x i8]* @fc.query(%struct.fc_request* %request)
  %p = getelementptr inbounds [64 x i8], [64 x i8]* %0, i64 0, i64 %i
  %"fc.o.p.m0" = mul i64 %i, 1
  %"fc.o.p.a0" = add i64 0, %"fc.o.p.m0"
  %"fc.o.p" = add i64 %"fc.o.p.a0", 0
  %"fc.b.4.p" = bitcast %struct.fc_request* %request to i64*
  %"fc.b.4.o0" = add i64 %"fc.o.p", 16
  %"fc.b.4.v0" = call i64 @fc.words.get.10.1(i64* %"fc.b.4.p", i64 %"fc.b.4.o0")
  %"fc.b.4.s0" = shl i64 %"fc.b.4.v0", 0
  %"fc.b.4.t0" = or i64 0, %"fc.b.4.s0"
  %x = trunc i64 %"fc.b.4.t0" to i8
  %j = zext i8 %x to i64
  %q = getelementptr inbounds [5 x i16], [5 x i16]* @table, i64 0, i64 %j
  %"fc.o.q.m0" = mul i64 %j, 2
  %"fc.o.q.a0" = add i64 0, %"fc.o.q.m0"
  %"fc.o.q" = add i64 %"fc.o.q.a0", 0
  %"fc.b.7.o0" = add i64 %"fc.o.q", 0
  %"fc.b.7.v0" = call i64 @"fc.table.2.table"(i64 %"fc.b.7.o0")
  %"fc.b.7.s0" = shl i64 %"fc.b.7.v0", 0
  %"fc.b.7.t0" = or i64 0, %"fc.b.7.s0"
  %y = trunc i64 %"fc.b.7.t0" to i16
  %r = getelementptr inbounds %struct.state, %struct.state* %s, i64 0, i32 1, i64 %j
  %"fc.o.r.m0" = mul i64 %j, 2
  %"fc.o.r.a0" = add i64 0, %"fc.o.r.m0"
  %"fc.o.r" = add i64 %"fc.o.r.a0", 4
  %"fc.b.9.o0" = add i64 %"fc.o.r", 0
  %"fc.b.9.x" = zext i16 %y to i64
  %"fc.b.9.y0" = lshr i64 %"fc.b.9.x", 0
  call void @fc.vars.put.2(i64 %"fc.b.9.o0", i64 %"fc.b.9.y0")
  ret i64 0
}
; needs fc.words.get.10.1
; needs "fc.table.2.table"
; needs fc.vars.get.2
; needs fc.vars.put.2

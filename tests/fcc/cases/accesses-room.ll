; accesses computed 0
define i64 @run(ptr %request, ptr %s, i64 %i) {
entry:
  %room = alloca [12 x i8], align 1
  call void @llvm.lifetime.start.p0(i64 12, ptr nonnull %room)
  %p = getelementptr inbounds [12 x i8], ptr %room, i64 0, i64 %i
  store i8 65, ptr %p, align 1
  %n = sub i64 12, %i
  %call = call i64 inttoptr (i64 5 to ptr)(ptr noundef nonnull %p, i64 noundef %n) #3, !dbg !9
  call void @llvm.lifetime.end.p0(i64 12, ptr nonnull %room)
  ret i64 0
}
; ----
define i64 @run(ptr %request, ptr %s, i64 %i) {
entry:
  %"fc.a.room" = alloca [2 x i64], align 8
  %room = bitcast ptr %"fc.a.room" to ptr
  store [2 x i64] zeroinitializer, ptr %"fc.a.room", align 8
  %p = getelementptr inbounds [12 x i8], ptr %room, i64 0, i64 %i
  %"fc.o.p.m0" = mul i64 %i, 1
  %"fc.o.p.a0" = add i64 0, %"fc.o.p.m0"
  %"fc.o.p" = add i64 %"fc.o.p.a0", 0
  %"fc.b.5.p" = bitcast ptr %room to ptr
  %"fc.b.5.o0" = add i64 %"fc.o.p", 0
  %"fc.b.5.x" = zext i8 65 to i64
  %"fc.b.5.y0" = lshr i64 %"fc.b.5.x", 0
  call void @fc.words.put.2.1(ptr %"fc.b.5.p", i64 %"fc.b.5.o0", i64 %"fc.b.5.y0"), !dbg !9
  %n = sub i64 12, %i
  %"fc.b.7.p" = bitcast ptr %room to ptr
  %call = call i64 @fc.reply.12(ptr %"fc.b.7.p", i64 %"fc.o.p", i64 %n), !dbg !9
  ret i64 0
}
; needs fc.words.get.2.1
; needs fc.words.put.2.1
; needs fc.reply.12

; thermistor.c by hand. Variables: the tenths of a degree, two bytes.
; --vars 8 --budget 35
mov64 r9, r2
ldxb r4, r1, 0              ; the method: 1 GET, 2 POST
jne r4, 2, show
mov64 r0, 0x80              ; 4.00 unless the payload is two bytes, 4095 at most
jne r3, 2, end
ldxh r4, r1, 80
jgt r4, 4095, end
lddw r5, 0x029e031603d404e2 ; 1250, 980, 790, 670
stxdw r10, -40, r5
lddw r5, 0x017201ae01f40244 ; 580, 500, 430, 370
stxdw r10, -32, r5
lddw r5, 0x008200be00fa0136 ; 310, 250, 190, 130
stxdw r10, -24, r5
lddw r5, 0xff2effa600000046 ; 70, 0, -90, -210
stxdw r10, -16, r5
sth r10, -8, -400
mov64 r5, r4
rsh64 r5, 8                 ; the point before
lsh64 r5, 1
mov64 r6, r10
add64 r6, r5
ldsxh r7, r6, -40
ldsxh r8, r6, -38           ; the next one
sub64 r8, r7
and64 r4, 255
mul64 r8, r4
sdiv64 r8, 256
add64 r7, r8
stxh r9, 0, r7
call 7                      ; notify()
show:
mov64 r1, r9
mov64 r2, 2
call 5                      ; reply_put(variables, 2)
mov64 r0, 0
end:
exit

; alarm.c by hand. Variables: the limit and the value, two bytes each, and a byte: 0 normal, 1 raised, 2 acknowledged.
; --vars 8 --budget 40
mov64 r6, r2
ldxb r4, r1, 0              ; the method: 1 GET, 2 POST
jne r4, 2, show
ldxb r7, r6, 4              ; the previous state
mov64 r8, r7
ldxdw r4, r1, 16            ; the query
lddw r5, .text "ack"
jne r4, r5, value
jne r8, 1, judge
mov64 r8, 2
ja judge
value:
mov64 r0, 0x80              ; 4.00 unless the payload is two bytes
jne r3, 2, end
ldxh r3, r1, 80
lddw r5, .text "limit"
jeq r4, r5, limit
stxh r6, 2, r3
ja judge
limit:
stxh r6, 0, r3
judge:
ldxh r4, r6, 0
ldxh r5, r6, 2
jgt r5, r4, above
jne r8, 2, settle
mov64 r8, 0
above:
jne r8, 0, settle
jle r5, r4, settle          ; from above, with a value within the limit
mov64 r8, 1
settle:
stxb r6, 4, r8
jeq r7, r8, show
call 7                      ; notify()
show:
ldxb r4, r6, 4
lddw r5, .text "normal"
mov64 r2, 6
jeq r4, 0, say
lddw r5, .text "raised"
jeq r4, 1, say
lddw r5, .text "acked"
mov64 r2, 5
say:
stxdw r10, -8, r5
mov64 r1, r10
add64 r1, -8
call 5                      ; reply_put(frame's last eight bytes, 6 or 5)
mov64 r0, 0
end:
exit

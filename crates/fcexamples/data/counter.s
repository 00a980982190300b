; Counts POSTs in the first word of the variables. A reply is the count: eight bytes, the least first.
; --vars 8 --budget 15
ldxb r6, r1, 0              ; the method: 1 GET, 2 POST
mov64 r7, r2                ; R2 is unset behind a call
jne r6, 2, 7                ; a GET changes nothing
mov64 r1, 0
call 3                      ; var_get(0)
mov64 r2, r0
add64 r2, 1
mov64 r1, 0
call 4                      ; var_put(0, count + 1)
call 7                      ; notify(): who observes the slot is to be told
mov64 r1, r7
mov64 r2, 8
call 5                      ; reply_put(variables, 8)
mov64 r0, 0
exit

; Replies the text `level=` and the variables' first byte in three decimal digits. A POST sets it to its payload's first byte.
; --vars 8 --budget 39
ldxb r6, r1, 0              ; the method: 1 GET, 2 POST
mov64 r7, r2                ; R2 is unset behind a call
jne r6, 2, 3
ldxb r4, r1, 80             ; the payload's first byte, or 0
stxb r7, 0, r4
call 7                      ; notify()
lddw r4, 67535768020332     ; `level=`
stxdw r10, -8, r4
mov64 r1, r10
add64 r1, -8
mov64 r2, 6
call 5                      ; reply_put(frame's last eight bytes, 6)
ldxb r6, r7, 0
mov64 r1, r6
mov64 r2, 100
callf 8                     ; digit(level, 100)
mov64 r1, r6
mov64 r2, 10
callf 5                     ; digit(level, 10)
mov64 r1, r6
mov64 r2, 1
callf 2                     ; digit(level, 1)
mov64 r0, 0
exit
; digit(value, unit): adds the digit of that unit to the reply
div64 r1, r2
mod64 r1, 10
add64 r1, 48                ; `0`
call 6                      ; reply_byte(48 + digit)
exit

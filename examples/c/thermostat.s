; thermostat.c by hand. Variables: byte 0 is 1 if the heating is on, byte 1 is the target, or 0.
; --vars 8 --budget 34
mov64 r7, r2                ; R2 is unset after a call
ldxb r6, r7, 0              ; whether it was on
ldxb r4, r1, 0              ; the method: 1 GET, 2 POST
jne r4, 2, 22
mov64 r0, 128               ; 4.00 unless the payload is one byte
jeq r3, 1, 1
exit
ldxb r5, r1, 80             ; the degrees
ldxb r4, r1, 7              ; the query's length
jne r4, 6, 6
ldxw r4, r1, 16
jne r4, 1735549300, 4       ; `targ`
ldxh r4, r1, 20
jne r4, 29797, 2            ; `et`
stxb r7, 1, r5              ; the target
ja 10
ldxb r4, r7, 1
jne r4, 0, 1
mov64 r4, 20
jge r5, r4, 1
stb r7, 0, 1                ; on below the target
jle r5, r4, 1
stb r7, 0, 0                ; off above it
ldxb r4, r7, 0
jeq r4, r6, 1
call 7                      ; notify()
stw r10, -4, 6710895        ; `off`
mov64 r2, 3
ldxb r4, r7, 0
jeq r4, 0, 2
stw r10, -4, 28271          ; `on`
mov64 r2, 2
mov64 r1, r10
add64 r1, -4
call 5                      ; reply_put(frame's last four bytes, 3 or 2)
mov64 r0, 0
exit

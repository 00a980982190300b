; A fan by a temperature: bytes 8 and 9 of the readings, in tenths of a degree, with a sign, the least byte first. A POST looks at it: the fan is on from 30.0
; degrees and off from 29.0 down, and observers are told where that changes. Each answer is `on` or `off`. Variables: byte 0 whether it is on.
; --format 2 --vars 8 --budget auto
mov64 r7, r2                ; R2 and R4 are unset after a call
ldxb r6, r1, 0              ; the method: 1 GET, 2 POST
jne r6, 2, reply
ldsxh r5, r4, 8             ; the temperature, which has a sign
ldxb r8, r7, 0              ; whether it was on
jslt r5, 300, cool
stb r7, 0, 1
cool:
jsgt r5, 290, looked
stb r7, 0, 0
looked:
ldxb r9, r7, 0
jeq r9, r8, reply
call 7                      ; notify()
reply:
stw r10, -4, 6710895        ; `off`
mov64 r2, 3
ldxb r9, r7, 0
jeq r9, 0, put
stw r10, -4, 28271          ; `on`
mov64 r2, 2
put:
mov64 r1, r10
add64 r1, -4
call 5                      ; reply_put(the frame's last four bytes, 3 or 2)
mov64 r0, 0
exit

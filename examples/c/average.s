; average.c by hand. Variables: four readings of two bytes, the latest first, and a word that counts them, 0 to 4.
; --vars 16 --budget 49
ldxb r4, r1, 0              ; the method: 1 GET, 2 POST
jne r4, 2, 37
mov64 r0, 128               ; 4.00 unless the payload is one to four digits
jeq r3, 0, 34
jgt r3, 4, 33
mov64 r4, 0                 ; the reading
ldxb r5, r1, 80
sub64 r5, 48                ; a character below `0` becomes a large number
jgt r5, 9, 29
add64 r4, r5
jeq r3, 1, 17
ldxb r5, r1, 81
sub64 r5, 48
jgt r5, 9, 24
mul64 r4, 10
add64 r4, r5
jeq r3, 2, 11
ldxb r5, r1, 82
sub64 r5, 48
jgt r5, 9, 18
mul64 r4, 10
add64 r4, r5
jeq r3, 3, 5
ldxb r5, r1, 83
sub64 r5, 48
jgt r5, 9, 12
mul64 r4, 10
add64 r4, r5
ldxdw r5, r2, 0             ; each reading moves two bytes further, and the last one out
lsh64 r5, 16
or64 r5, r4
stxdw r2, 0, r5
ldxdw r5, r2, 8
jge r5, 4, 2
add64 r5, 1
stxdw r2, 8, r5
call 7                      ; notify()
mov64 r0, 0
exit
mov64 r0, 132               ; 4.04 without a reading
ldxdw r5, r2, 8
jne r5, 0, 1
exit
ldxh r6, r2, 0
ldxh r4, r2, 2
add64 r6, r4
ldxh r4, r2, 4
add64 r6, r4
ldxh r4, r2, 6
add64 r6, r4
div64 r6, r5                ; the average
mov64 r1, r6
mov64 r2, 1000
callf 12
mov64 r1, r6
mov64 r2, 100
callf 9
mov64 r1, r6
mov64 r2, 10
callf 6
mod64 r6, 10
add64 r6, 48
mov64 r1, r6
call 6                      ; the last digit, also of 0
mov64 r0, 0
exit
; digit(value, unit): adds the digit of that unit to the reply, and nothing if the value is below it
mov64 r0, 0
jlt r1, r2, 4
div64 r1, r2
mod64 r1, 10
add64 r1, 48
call 6
exit

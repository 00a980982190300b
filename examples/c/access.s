; access.c by hand. Variables: the code's four characters, and a word that is 1 if a code is set.
; --vars 8 --budget 21
ldxb r4, r1, 0              ; the method: 1 GET, 2 POST
ldxw r5, r2, 4
jne r5, 0, 3
mov64 r0, 132               ; no code: 4.04 to a GET
jeq r4, 2, 12
exit
mov64 r0, 131               ; 4.03 unless the query is `code=` and the code
ldxb r5, r1, 7
jne r5, 9, 14
ldxw r5, r1, 16
jne r5, 1701080931, 12      ; `code`
ldxb r5, r1, 20
jne r5, 61, 10              ; `=`
ldxw r5, r1, 21
ldxw r6, r2, 0
jne r5, r6, 7
jne r4, 2, 7
mov64 r0, 128               ; 4.00 unless the payload is four bytes
jne r3, 4, 4
ldxw r5, r1, 80
stxw r2, 0, r5
stw r2, 4, 1
mov64 r0, 0
exit
stw r10, -4, 1852141679     ; `open`
mov64 r1, r10
add64 r1, -4
mov64 r2, 4
call 5                      ; reply_put(frame's last four bytes, 4)
mov64 r0, 0
exit

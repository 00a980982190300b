; Replies `high` where the payload's first byte is above 100, else `low`; 4.00 where there is no payload.
; --vars 0 --budget 13
jgt r3, 0, 2
mov64 r0, 128               ; 4.00
exit
mov64 r1, 0
call 2                      ; payload_byte(0)
stw r10, -4, 7827308        ; `low`
mov64 r2, 3
jle r0, 100, 2
stw r10, -4, 1751607656     ; `high`
mov64 r2, 4
mov64 r1, r10
add64 r1, -4
call 5                      ; reply_put(frame's last four bytes, 3 or 4)
mov64 r0, 0
exit

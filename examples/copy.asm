mov64 r1 0
call 1
mov64 r6 r0
mov64 r1 1
call 1
jle64 r6 r0 1
mov64 r6 r0
mov64 r0 r6
lddw r4 4294967296
lddw r5 8589934592
jlt64 r6 8 6
ldxd r7 r4 0
stxd r5 0 r7
add64 r4 8
add64 r5 8
sub64 r6 8
ja -7
jeq64 r6 0 6
ldxb r7 r4 0
stxb r5 0 r7
add64 r4 1
add64 r5 1
sub64 r6 1
ja -7
exit

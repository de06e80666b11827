mov64 r6 r1
mov64 r7 r2
mov64 r1 0
call 1
mov64 r8 r0
rsh64 r8 3
mov64 r0 0
lddw r4 4294967296
jeq64 r8 0 7
ldxw r5 r4 0
add64 r4 8
sub64 r8 1
jlt64 r5 r6 -5
jge64 r5 r7 -6
add64 r0 1
ja -8
exit

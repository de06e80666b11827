mov64 r6 r1
lddw r4 4294967296
mov64 r0 0
jeq64 r6 0 5
ldxh r5 r4 0
add64 r0 r5
add64 r4 2
sub64 r6 2
ja -6
mov64 r5 r0
rsh64 r5 16
and64 r0 65535
add64 r0 r5
mov64 r5 r0
rsh64 r5 16
add64 r0 r5
xor64 r0 65535
and64 r0 65535
lddw r4 8589934592
stxh r4 0 r0
exit

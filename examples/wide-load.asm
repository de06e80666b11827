lddw r1 4294967296
ldxb r0 r1 -1
jeq32 r0 -5 -2
exit

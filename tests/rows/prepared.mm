machine 128 0 4 65536
process 0 32
process 0 32
process 0 32
process 0 32
process 0 32
process 0 32
process 0 32
process 0 32
process 0 32
process 0 32
file data 2 65
alloc 1 0x10000 0x4000 0x203000 0x04
alloc 1 0x20000 0x2000 0x3000 0x20
create 1 0x2000 0x04 shared
create 1 0x1000 0x04 a2345678901234567890123456789._-
create 1 0x1000 0x04 abcdefghijklmnopqrstuvwxyzABCDEF
createfile 1 data 0x04 f
map 1 4 2 0 0 0x400000
map 1 16 2 0 0 0x410000
stack 9 1 0x10000 0x2000
write 1 0x10000 0102
write 1 0x400000 AA
write 1 0x410000 58

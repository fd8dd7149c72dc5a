machine 6 8 1 0
process 0 8
alloc 1 0 0x7000 0x3000 0x04
write 1 0x10000 48656C6C6F
trim 1 1
writer 1
io 1
read 1 0x10000 5
trim 1 1
write 1 0x11000 01
write 1 0x12000 02
write 1 0x13000 03
write 1 0x14000 04
write 1 0x15000 05
counts
write 1 0x16000 06
counts
read 1 0x10000 5
counts

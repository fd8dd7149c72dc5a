machine 6 4096 1 0
process 0 8
alloc 1 0 0x2000 0x3000 0x04
write 1 0x10000 01
trim 1 1
writer 1
io 1
grow 200000
write 1 0x11000 02
trim 1 1
writer 1
io 1
counts

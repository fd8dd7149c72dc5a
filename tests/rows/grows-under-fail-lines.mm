machine 8 8 1 0
process 0 16
alloc 1 0 0xC000 0x3000 0x04
write 1 0x10000 10
write 1 0x11000 11
write 1 0x12000 12
write 1 0x13000 13
write 1 0x14000 14
write 1 0x15000 15
write 1 0x16000 16
write 1 0x17000 17
trim 1 2
fail paging write 1 1
write 1 0x18000 18
fail paging write 1 8
grow 3
write 1 0x19000 19
counts
write 1 0x19000 19
read 1 0x12000 1
read 1 0x19000 1
charge

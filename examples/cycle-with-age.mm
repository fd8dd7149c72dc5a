machine 8 8 1 0
process 0 3
alloc 1 0 0x4000 0x3000 0x04
write 1 0x10000 10
age 1
write 1 0x11000 11
age 1
write 1 0x12000 12
age 1
write 1 0x13000 13
age 1
read 1 0x10000 1
age 1
read 1 0x11000 1
age 1
read 1 0x12000 1
age 1
read 1 0x13000 1
age 1
read 1 0x10000 1
age 1
read 1 0x11000 1
age 1
read 1 0x12000 1
age 1
read 1 0x13000 1

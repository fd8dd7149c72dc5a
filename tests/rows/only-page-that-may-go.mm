machine 6 4 1 1
file d 1 90
process 0 8
createfile 1 d 0x02 -
alloc 1 0 0x6000 0x3000 0x04
map 1 4 4 0 0 0
read 1 0x20000 1
write 1 0x10000 01
write 1 0x11000 02
write 1 0x12000 03
write 1 0x13000 04
write 1 0x14000 05
fail paging write 1 1000000
trim 1 5
write 1 0x15000 06
counts

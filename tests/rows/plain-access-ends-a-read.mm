machine 8 8 1 1
file d 1 9
process 0 4
createfile 1 d 0x02 -
map 1 4 4 0 0 0
begin 0 1 read 0x10000 1
read 1 0x10000 1
io 1
resume 0
begin 3 1 write 0x10000 AA
begin 3 2 read 0x10000 1
alloc 1 0 1 0x3000 0x04
begin 255 1 write 0x20000 AB
read 1 0x20000 1

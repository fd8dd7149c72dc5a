machine 6 2 1 1
file d 1 90
process 0 8
create 1 0x3000 0x04 -
close 1 4
createfile 1 d 0x04 -
map 1 8 1 0 0 0
begin 0 1 read 0x10000 1
io 1
resume 0
write 1 0x10001 77
read 1 0x10000 2
age 1
grow 2
exit 1
counts

machine 8 4 1 3
file d 3 9
process 1 6
process 0 3
create 1 0x2000 0x04 s
open 2 s
createfile 1 d 0x04 f
open 2 f
map 1 4 2 0 0 0
map 2 4 2 0 0 0
map 1 8 2 0 0 0
map 2 8 1 0 0 0
charge
grow 2
alloc 1 0 0x4000 0x3000 0x04
charge
write 1 0x10000 11
write 1 0x11000 12
write 2 0x20000 21
read 2 0x10000 1
write 1 0x20000 31
read 2 0x20000 2
read 2 0x21000 1
write 2 0x22000 23
write 1 0x30000 41
write 1 0x31000 42
write 1 0x32000 43
write 1 0x33000 44
flush 1 0x20000 0
read 2 0x11000 1
write 2 0x11001 55
write 1 0x21000 32
trim 1 6
trim 2 3
grow 3
read 1 0x11000 2
read 2 0x21000 2
write 2 0x20001 22
read 1 0x30000 1
read 1 0x31000 1
read 1 0x32000 1
read 1 0x33000 1
read 1 0x20000 2
read 2 0x20000 2
read 2 0x22000 2
flush 1 0x20000 0
free 1 0x31000 0x1000 0x4000
unmap 2 0x20000
exit 2
charge

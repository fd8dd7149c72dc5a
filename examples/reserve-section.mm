machine 64 64 4 0
process 0 32
process 0 32
create 1 0x4000 0x4000004 pool
open 2 pool
map 1 4 2 0 0 0
map 2 4 2 0 0 0
charge
read 2 0x11000 1
alloc 1 0x11000 1 0x1000 0x04
charge
write 1 0x11000 07
read 2 0x11000 1
alloc 2 0x11000 1 0x1000 0x02
charge
write 2 0x11000 08
write 1 0x11000 09
read 2 0x11000 1

machine 64 64 4 0
process 0 32
process 0 32
create 1 0x4000 0x04 pool
open 2 pool
create 2 0x9000 0x04 pool
map 1 4 2 0 0 0
map 2 4 4 0 0 0x400000
write 1 0x11000 48656C6C6F
read 2 0x401000 5
write 2 0x401000 00
charge
exit 1
read 2 0x401000 5
charge
exit 2
charge

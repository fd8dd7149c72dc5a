machine 64 64 4 0
process 0 32
process 0 32
create 1 0x2000 0x04 s
open 2 s
map 1 4 2 0 0 0
map 2 4 2 0 0 0
charge
protect 1 0x10000 1 0x08
charge
write 2 0x10000 41
read 1 0x10000 1
write 1 0x10000 42
read 2 0x10000 1
read 1 0x10000 1
write 2 0x11000 43
read 1 0x11000 1
charge
unmap 1 0x10000
charge

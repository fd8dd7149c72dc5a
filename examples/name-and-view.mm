machine 64 64 4 0
process 0 32
create 1 0x2000 0x04 keep
map 1 4 2 0 0 0
write 1 0x10000 77
close 1 4
open 1 keep
read 1 0x10000 1
charge
create 1 0x1000 0x04 keep
charge
unmap 1 0x10000
charge
close 1 4

machine 64 64 4 16
file data 4 65
process 0 32
process 0 32
createfile 1 data 0x04 d
open 2 d
charge
map 1 4 1 0 0 0
charge
map 2 4 4 0 0 0
charge
query 1 0x11000
write 1 0x11000 58
charge
read 1 0x11000 2
read 2 0x11000 2
query 1 0x11000
unmap 1 0x10000
charge

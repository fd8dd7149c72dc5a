machine 8 8 1 4
file data 4 65
process 0 8
process 0 8
createfile 1 data 0x04 d
open 2 d
map 1 4 1 0 0 0
map 2 4 4 0 0 0
write 1 0x11000 58
read 2 0x11000 1
trim 1 8
read 1 0x11000 2
read 2 0x11000 1
query 1 0x11000
charge

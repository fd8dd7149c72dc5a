machine 64 64 4 2
file a 2 1
process 0 32
createfile 1 a 0x04 -
map 1 4 2 0 0 0
write 1 0x10000 FF
write 1 0x11000 EE
fail file write 2 1
flush 1 0x10000 0
read 1 0x11000 2
flush 1 0x10000 0
unmap 1 0x10000
close 1 4
createfile 1 a 0x02 -
map 1 8 4 0 0 0
read 1 0x10000 2
read 1 0x11000 2

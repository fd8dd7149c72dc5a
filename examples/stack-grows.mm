machine 64 64 4 0
process 0 32
stack 0 1 0x10000 0x1000
charge
probe 0 0x1E800
charge
write 1 0x1E800 2A
query 1 0x1E000
probe 0 0x1E800
write 1 0x1D000 2A
probe 0 0x1D000
charge
read 1 0x1A000 1

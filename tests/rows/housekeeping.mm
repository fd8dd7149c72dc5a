machine 8 8 1 0
process 0 8
alloc 1 0 1 0x3000 0x04
write 1 0x10000 AB
age 1
trim 1 8
writer 1
zeroer 1
counts
read 1 0x10000 1
exit 1
charge

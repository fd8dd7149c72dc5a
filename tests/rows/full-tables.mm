machine 6 262143 1 2
process 0 4
grow 2
grow 1
grow 1
file a 3 0
file a 2 0
file a 1 0
file b 1 0
create 1 0x1000 0x4 s
create 1 0x1000 0x4 a
open 1 b
stack 0 1 0x10000 0x1000
stack 0 1 0x10000 0x1000
begin 0 1 write 0x1F000 01
counts
resume 0
io 1
exit 1
exit 1

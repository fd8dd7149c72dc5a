machine 8 4 1 0
machine 5

process 1 8

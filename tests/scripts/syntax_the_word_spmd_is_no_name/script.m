x = 1
spmd = 2

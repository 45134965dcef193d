[a, a] = gather(1, 2)
a

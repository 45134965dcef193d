[a b] = gather(1, 2)
[c] = gather(3)

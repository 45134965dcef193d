[a.b] = gather(1)

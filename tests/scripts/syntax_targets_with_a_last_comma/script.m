[a,] = gather(1)

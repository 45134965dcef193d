[a, b] = sum(1, 2)

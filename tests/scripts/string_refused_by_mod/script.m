x = mod('a', 1)

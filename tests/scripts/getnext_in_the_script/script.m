x = getnext(1)

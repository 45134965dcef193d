a = intmin(8)

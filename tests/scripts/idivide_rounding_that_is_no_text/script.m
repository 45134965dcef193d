x = idivide(int8(7), 2, 1)

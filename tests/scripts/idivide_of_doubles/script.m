x = idivide(7, 2)

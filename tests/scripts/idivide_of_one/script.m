x = idivide(int8(7))

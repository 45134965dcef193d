x = idivide('a', int8(1))

x = idivide(int8(7), 2, 'fix', 'fix')

x = idivide(int8(7), true)
y = idivide(true, int8(2), 'ceil')

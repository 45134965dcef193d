x = idivide(7, 2, 'up')

x = idivide(true, true)

x = y'

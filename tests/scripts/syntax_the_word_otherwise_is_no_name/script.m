x = 1
otherwise = 2

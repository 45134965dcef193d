x = 1
persistent = 2

x = 1
continue = 2

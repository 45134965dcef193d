x = 1
global = 2

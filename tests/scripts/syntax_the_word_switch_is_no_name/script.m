x = 1
switch = 2

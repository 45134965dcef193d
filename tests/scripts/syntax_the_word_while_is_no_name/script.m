x = 1
while = 2

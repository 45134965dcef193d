x = 1
try = 2

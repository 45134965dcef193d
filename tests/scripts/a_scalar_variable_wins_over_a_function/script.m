abs = 3;
y = abs(1)

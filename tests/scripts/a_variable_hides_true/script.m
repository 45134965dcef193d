true = 3;
x = true + 1

x = 1;
X = 2;
x
X

7;
x = 2;
(x)
ans

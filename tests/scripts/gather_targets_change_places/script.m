a = 1;
b = 2;
[a, b] = gather(b, a)

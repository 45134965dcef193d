x = 1;
x.ReadSize = 2;

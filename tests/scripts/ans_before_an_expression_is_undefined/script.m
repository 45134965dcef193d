x = 1;
ans

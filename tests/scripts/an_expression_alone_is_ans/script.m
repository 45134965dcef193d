1 + 1
ans
ans + 1;
ans

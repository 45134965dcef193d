function f(a, b, c)
  x = 1;

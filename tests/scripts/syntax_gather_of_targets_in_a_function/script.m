function f(a, b, c)
  [x, y] = gather(a, b);
end

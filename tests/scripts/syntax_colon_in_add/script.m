function f(a, b, c)
  add(c, :, 1);
end

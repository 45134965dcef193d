function f(a, b, c)
  foo(1);
end

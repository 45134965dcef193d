function f(a, b, c)
add(c, 1, 2) + 1;
end

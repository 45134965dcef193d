function f(a, b, c)
if 1 x = 2;
end
end

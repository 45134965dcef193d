function f(a, b, c, d)
end

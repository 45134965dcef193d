function f(a, 1, c)
end

function f(a, b, c) + 1
end

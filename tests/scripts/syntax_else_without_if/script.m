function f(a, b, c)
else
end

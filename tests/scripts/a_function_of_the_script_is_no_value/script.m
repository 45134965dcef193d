x = f(1, 2, 3)
function f(a, b, c)
end

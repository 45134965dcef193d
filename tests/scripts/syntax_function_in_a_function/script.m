function f(a, b, c)
function g(a, b, c)
end
end
